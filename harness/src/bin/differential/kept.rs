//! Consoles that are kept over several tapes and many calls.

use std::fmt;

use harness::hex::hex;
use harness::ours;
use harness::random::Random;
use harness::told::Told;

use crate::pool::Pool;
use crate::tally::Tally;
use crate::tapes::{LONGEST_TAPE, tape};

/// One call of a console.
struct Call<'t> {
    tape: &'t [u8],
    place: usize,
    room: Vec<u8>,
}

/// What a call did: how it ended, and the whole room after it.
#[derive(Debug, PartialEq, Eq)]
struct Done {
    ran: Result<(usize, usize), u8>,
    room: Vec<u8>,
}

/// A call that the two consoles answer differently.
#[derive(Debug)]
pub struct Different(String);

impl fmt::Display for Different {
    fn fmt(&self, f: &mut fmt::Formatter<'_>) -> fmt::Result {
        f.write_str(&self.0)
    }
}

impl std::error::Error for Different {}

/// The console of the library and the peer's, kept side by side.
struct Pair {
    ours: ours::Console,
    peer: peer::console::Console,
}

impl Pair {
    fn new() -> Self {
        Pair {
            ours: ours::Console::new(),
            peer: peer::console::Console::new(),
        }
    }

    /// Goes on with a copy of the library's console, in other memory.
    fn copy_ours(&mut self) {
        self.ours = self.ours.clone();
    }

    /// Makes a call on both consoles.
    fn call(&mut self, call: &Call) -> Result<Done, Different> {
        let mut room = call.room.clone();
        let ran = self.ours.run(call.tape, call.place, &mut room);
        let ran = ran.map(|ran| (ran.next, ran.count));
        let ours = Done { ran, room };
        let mut room = call.room.clone();
        let ran = self.peer.run(call.tape, call.place, &mut room);
        let ran = ran.map(|ran| (ran.next, ran.count));
        let ran = ran.map_err(|refusal| refusal.number);
        let peer = Done { ran, room };
        if ours == peer {
            return Ok(peer);
        }
        let (tape, place) = (hex(call.tape), call.place);
        let before = hex(&call.room);
        Err(Different(format!(
            "place {place} of tape {tape}\nroom {before}\nours {ours:x?}\npeer {peer:x?}"
        )))
    }
}

/// Runs one sequence of tapes on kept consoles.
pub fn sequence(
    pool: &Pool,
    seed: u64,
    number: u64,
    tally: &mut Tally,
) -> Result<(), Box<dyn std::error::Error>> {
    let mut random = Random::of(seed ^ 0x6b65_7074, number);
    let mut pair = Pair::new();
    for _ in 0..random.between(1, 4) {
        let whole = tape(pool, seed, random.bits());
        for part in split(&whole, &mut random) {
            pair.copy_ours();
            run_tape(&mut pair, part, &mut random, tally)?;
        }
    }
    Ok(())
}

/// The parts of a tape, cut before some of its commands.
fn split<'t>(whole: &'t [u8], random: &mut Random) -> Vec<&'t [u8]> {
    let mut parts = Vec::new();
    let (mut begin, mut place) = (0, 0);
    while let Some((&letter, operands)) = whole.get(place..).and_then(<[u8]>::split_first) {
        if random.once_in(4) {
            parts.push(&whole[begin..place]);
            begin = place;
        }
        let width = peer::tape::Command::read(letter, operands).map_or(1, |(_, width)| width);
        place += width;
    }
    parts.push(&whole[begin..]);
    parts
}

/// Runs a tape to its end, with calls between that are refused as a whole, and some jumps.
fn run_tape(
    pair: &mut Pair,
    tape: &[u8],
    random: &mut Random,
    tally: &mut Tally,
) -> Result<(), Different> {
    let mut place = 0;
    for _ in 0..120 {
        if random.once_in(8) {
            refused_call(pair, tape, random, tally)?;
        }
        if random.once_in(30) {
            place = random.index(tape.len() + 1);
        }
        let size = random.pick(&[66, 66, 67, 68, 100]);
        let room = pattern(size, random);
        let done = pair.call(&Call { tape, place, room })?;
        count(&done, tally);
        match done.ran {
            Ok((next, 1..)) => place = next,
            _ => return Ok(()),
        }
    }
    Ok(())
}

/// A call that is refused as a whole, for one cause or several.
fn refused_call(
    pair: &mut Pair,
    tape: &[u8],
    random: &mut Random,
    tally: &mut Tally,
) -> Result<(), Different> {
    let causes = random.between(1, 7);
    let mut long = tape.to_vec();
    if causes & 1 != 0 {
        long.resize(LONGEST_TAPE + random.pick(&[1, 2, 500]), b'D');
    }
    let (length, inside) = (long.len(), random.index(long.len() + 1));
    let beyond = random.pick(&[length + 1, length + 2, length + 65_536, usize::MAX]);
    let place = if causes & 2 != 0 { beyond } else { inside };
    let (small, large) = (random.pick(&[0, 1, 5, 64, 65]), random.pick(&[66, 67]));
    let room = pattern(if causes & 4 != 0 { small } else { large }, random);
    let tape = &long;
    let done = pair.call(&Call { tape, place, room })?;
    count(&done, tally);
    Ok(())
}

/// A room full of random bytes.
fn pattern(size: usize, random: &mut Random) -> Vec<u8> {
    (0..size).map(|_| random.byte()).collect()
}

fn count(done: &Done, tally: &mut Tally) {
    tally.calls += 1;
    match done.ran {
        Err(number) => tally.refused(number),
        Ok((_, count)) => {
            if let Some((told, _)) = Told::read(&done.room[..count]) {
                tally.told(&told);
            }
        }
    }
}
