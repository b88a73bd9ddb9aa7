//! The refusal of grants that would pass 2,000,000,000 looks.

use std::error::Error;
use std::thread;

use harness::hex::hex;
use harness::ours;
use harness::stack::{Kind, Stack, grant_command};
use harness::told::Told;

use crate::tally::Tally;

/// A ring that cannot be brought home: with span 3 each turn exchanges two trays at odd places, or
/// two at even ones.
fn unreachable_ring() -> Stack {
    Stack {
        kind: Kind::Ring,
        span: 3,
        trays: vec![2, 1, 3, 4],
    }
}

/// Grants of 2,000,000,000 looks in all, and among them grants that are refused.
fn commands() -> Vec<Vec<u8>> {
    let grant = grant_command;
    let letter = |letter: u8| vec![letter];
    let mut commands = vec![unreachable_ring().load(64)];
    commands.extend(vec![grant(1_000_000); 1_999]);
    commands.extend([grant(1_000_001), grant(0), letter(b'G')]);
    commands.extend([1_000_000, 990_001, 989_999, 2].map(grant));
    commands.extend([letter(b'G'), grant(1), grant(1), letter(b'G')]);
    commands.extend([0, 2, 1_000_000, 1_000_001, 0xffff_ffff].map(grant));
    commands.extend([letter(b'F'), unreachable_ring().load(64)]);
    commands.extend(b"DDGF".map(letter));
    commands
}

/// All replies of the library's console.
fn ours() -> Result<Vec<Vec<u8>>, String> {
    let mut console = ours::Console::new();
    let run = |command: Vec<u8>| {
        let mut reply = vec![0; 66];
        let ran = console.run(&command, 0, &mut reply);
        let ran = ran.map_err(|number| format!("ours refused the call by {number}"))?;
        reply.truncate(ran.count);
        Ok(reply)
    };
    commands().into_iter().map(run).collect()
}

/// All replies of the peer's console.
fn peer() -> Result<Vec<Vec<u8>>, String> {
    let mut console = peer::console::Console::new();
    let run = |command: Vec<u8>| {
        let mut reply = vec![0; 66];
        let ran = console.run(&command, 0, &mut reply);
        let ran = ran.map_err(|refusal| format!("peer refused the call by {}", refusal.number))?;
        reply.truncate(ran.count);
        Ok(reply)
    };
    commands().into_iter().map(run).collect()
}

/// Runs the commands on both consoles, each in a thread of its own, and compares.
pub fn run(tally: &mut Tally) -> Result<(), Box<dyn Error>> {
    let (ours, peer) = thread::scope(|scope| {
        let ours = scope.spawn(ours);
        let peer = peer();
        (ours.join(), peer)
    });
    let ours = ours.map_err(|_| "the thread of the library's console has ended early")??;
    for (number, (ours, peer)) in ours.iter().zip(&peer?).enumerate() {
        if ours != peer {
            let (ours, peer) = (hex(ours), hex(peer));
            return Err(format!("long command {number}: ours {ours}, peer {peer}").into());
        }
        tally.calls += 1;
        if let Some((told, _)) = Told::read(ours) {
            tally.told(&told);
        }
    }
    Ok(())
}
