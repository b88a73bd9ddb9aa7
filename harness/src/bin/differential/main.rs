//! Compares the console of the library with the peer's, byte for byte, over generated tapes.

mod faults;
mod kept;
mod long;
mod pool;
mod tally;
mod tapes;

use std::error::Error;
use std::process::ExitCode;

use harness::hex::hex;
use harness::options::Options;
use harness::ours::{self, Fit};
use harness::report::status;

use pool::Pool;
use tally::Tally;

fn main() -> ExitCode {
    status(run())
}

/// Runs all comparisons. False where a reply letter or a refusal was not met.
fn run() -> Result<bool, Box<dyn Error>> {
    let numbers = [
        ("seed", 20_260_717),
        ("tapes", 24_000),
        ("sequences", 1_500),
    ];
    let options = Options::read(&numbers, &["long"])?;
    let seed = options.number("seed");
    let pool = Pool::new(seed);
    let mut tally = Tally::default();
    for number in 0..options.number("tapes") {
        whole_tape(&pool, seed, number, &mut tally)?;
    }
    for number in 0..options.number("sequences") {
        kept::sequence(&pool, seed, number, &mut tally)?;
    }
    if options.flag("long") {
        long::run(&mut tally)?;
    }
    tally.print();
    let missing = tally.missing(options.flag("long"));
    println!("\nno difference");
    if !missing.is_empty() {
        println!("not met: {}", missing.join(", "));
    }
    Ok(missing.is_empty())
}

/// Compares the replies to a whole tape.
fn whole_tape(
    pool: &Pool,
    seed: u64,
    number: u64,
    tally: &mut Tally,
) -> Result<(), Box<dyn Error>> {
    let tape = tapes::tape(pool, seed, number);
    let peer = peer::console::replies(&tape);
    let ours = ours::replies(&tape)?;
    if ours != peer {
        let (tape, ours, peer) = (hex(&tape), hex(&ours), hex(&peer));
        return Err(format!("tape {number}: {tape}\nours {ours}\npeer {peer}").into());
    }
    if number.is_multiple_of(8) {
        rooms(&tape, &peer)?;
    }
    tally.tape(&peer);
    Ok(())
}

/// Checks what is written where the room is as long as the replies, shorter, and longer.
fn rooms(tape: &[u8], replies: &[u8]) -> Result<(), Box<dyn Error>> {
    let needed = replies.len();
    for size in [0, needed.saturating_sub(1), needed, needed + 1, needed + 70] {
        let mut room = vec![0xa5; size];
        let mut expected = room.clone();
        let written = size.min(needed);
        expected[..written].copy_from_slice(&replies[..written]);
        let fit = if size < needed {
            Fit::NoRoom(needed)
        } else {
            Fit::Written(needed)
        };
        if ours::replies_into(tape, &mut room)? != fit || room != expected {
            let tape = hex(tape);
            return Err(format!("a room of {size} for the {needed} replies to tape {tape}").into());
        }
    }
    Ok(())
}
