//! Loads with faults.

use harness::random::Random;
use harness::stack::{Kind, Stack, least, load_command};

/// What can be wrong with a load, each as a bit of a set.
pub const TRAY_COUNT: u8 = 1;
pub const SPAN: u8 = 2;
pub const TRAY_NUMBER: u8 = 4;
pub const TRAY_REPEATED: u8 = 8;
pub const TRAY_BEYOND: u8 = 16;
pub const LIMIT: u8 = 32;
/// The sets of faults that are in the load itself.
pub const SETS: u8 = 64;

/// A load with a set of faults. A fault that the kind does not have is left out.
pub fn load(kind: Kind, faults: u8, random: &mut Random) -> Vec<u8> {
    let has = |fault| faults & fault != 0;
    let count = random.byte_between(4, 9);
    let stack = Stack::random(kind, count, 0, random);
    let mut bytes = stack.bytes();
    let trays = usize::from(count);
    if has(TRAY_REPEATED) {
        let later = 1 + random.index(trays - 1);
        let side = if kind == Kind::Sided { 0x80 } else { 0 };
        bytes[later] = bytes[random.index(later)] ^ (random.byte() & side);
    }
    if has(TRAY_NUMBER) {
        bytes[random.index(trays)] = wrong_number(kind, count, random);
    }
    if has(TRAY_BEYOND) {
        bytes[trays + random.index(32 - trays)] = random.pick(&[1, 2, count, 128, 129, 255]);
    }
    let span = if has(SPAN) {
        random.pick(&[0, 1, count + 1, 33, 128, 255])
    } else {
        random.byte_between(2, count)
    };
    let limit = if has(LIMIT) {
        random.pick(&[65, 66, 128, 192, 255])
    } else {
        random.pick(&[0, 1, 3, 63, 64])
    };
    let told_count = if has(TRAY_COUNT) {
        random.pick(&[0, 33, 34, 128, 255, least(kind) - 1])
    } else {
        count
    };
    load_command(kind, limit, told_count, span, &bytes)
}

/// A tray byte whose number is 0 or above the number of trays.
fn wrong_number(kind: Kind, count: u8, random: &mut Random) -> u8 {
    match kind {
        Kind::Sided => random.pick(&[0, 128, count + 1, 129 + count, 127, 255]),
        Kind::Plain | Kind::Ring => random.pick(&[0, count + 1, 127, 128, 129, 255]),
    }
}

/// A load at the edges of what each operand may be. Its trays are those of home, one of them or of
/// the bytes after them perhaps changed.
pub fn edge_load(kind: Kind, random: &mut Random) -> Vec<u8> {
    let count: u8 = random.pick(&[0, 1, 2, 3, 4, 5, 31, 32, 33, 128, 255]);
    let mut bytes = [0; 32];
    for (byte, tray) in bytes.iter_mut().zip(1..=count) {
        *byte = tray;
    }
    let (below, above) = (count.wrapping_sub(1), count.wrapping_add(1));
    let edges = [0, 1, count, above, 127, 128, 129, count ^ 128, above ^ 128];
    if random.once_in(2) {
        bytes[random.index(32)] = random.pick(&edges);
    }
    if random.once_in(4) {
        bytes[usize::from(count.min(31))] = random.pick(&edges);
    }
    let span = random.pick(&[0, 1, 2, 3, below, count, above, 32, 33, 255]);
    let limit = random.pick(&[0, 1, 2, 63, 64, 64, 64, 65, 255]);
    load_command(kind, limit, count, span, &bytes)
}
