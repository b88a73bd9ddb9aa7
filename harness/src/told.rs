//! Reading replies.

/// What one reply tells.
#[derive(Clone, Debug, PartialEq, Eq)]
pub enum Told {
    Accepted,
    Working { looks: u32 },
    Found { length: u8, looks: u32 },
    NoPlan { looks: u32 },
    Fetched { plan: Vec<u8> },
    Refused { number: u8 },
}

impl Told {
    /// The letter of the reply.
    pub fn letter(&self) -> u8 {
        match self {
            Told::Accepted => b'A',
            Told::Working { .. } => b'B',
            Told::Found { .. } => b'Y',
            Told::NoPlan { .. } => b'N',
            Told::Fetched { .. } => b'T',
            Told::Refused { .. } => b'E',
        }
    }

    /// Reads the first reply of some bytes, and gives it with the bytes that follow.
    pub fn read(bytes: &[u8]) -> Option<(Told, &[u8])> {
        let (&letter, rest) = bytes.split_first()?;
        let width = match letter {
            b'A' => 0,
            b'B' | b'N' | b'E' => 4,
            b'Y' => 5,
            b'T' => 65,
            _ => return None,
        };
        let (what, rest) = rest.split_at_checked(width)?;
        let told = match (letter, what) {
            (b'A', []) => Told::Accepted,
            (b'B', &[a, b, c, d]) => Told::Working {
                looks: u32::from_be_bytes([a, b, c, d]),
            },
            (b'N', &[a, b, c, d]) => Told::NoPlan {
                looks: u32::from_be_bytes([a, b, c, d]),
            },
            (b'Y', &[length, a, b, c, d]) => Told::Found {
                length,
                looks: u32::from_be_bytes([a, b, c, d]),
            },
            (b'E', &[_, number, _, _]) => Told::Refused { number },
            (b'T', [length, sheet @ ..]) => Told::Fetched {
                plan: sheet.get(..usize::from(*length))?.to_vec(),
            },
            _ => return None,
        };
        Some((told, rest))
    }

    /// Reads all replies of some bytes. `None` where bytes are left over that are no reply.
    pub fn read_all(mut bytes: &[u8]) -> Option<Vec<Told>> {
        let mut all = Vec::new();
        while !bytes.is_empty() {
            let (told, rest) = Told::read(bytes)?;
            all.push(told);
            bytes = rest;
        }
        Some(all)
    }
}
