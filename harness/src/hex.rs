//! Bytes as hexadecimal text.

/// The bytes in hexadecimal, without spaces between.
pub fn hex(bytes: &[u8]) -> String {
    bytes.iter().map(|byte| format!("{byte:02x}")).collect()
}
