//! Stacks of trays of any kind: the commands that load them, and what the search finds for them.

use peer::estimates::{Breakpoints, DualLookup, Gaps, HalfGaps, LookAhead};
use peer::machines::{PlainTower, SidedTower, TrayRing};
use peer::recursive::{Outcome, search};
use peer::setting::{TrayBytes, tray_bytes};

use crate::random::Random;

pub use peer::tape::Kind;

/// All kinds.
pub const KINDS: [Kind; 3] = [Kind::Plain, Kind::Sided, Kind::Ring];

/// The letter of a kind.
pub fn letter(kind: Kind) -> u8 {
    match kind {
        Kind::Plain => b'P',
        Kind::Sided => b'S',
        Kind::Ring => b'R',
    }
}

/// The least number of trays of a kind.
pub fn least(kind: Kind) -> u8 {
    if kind == Kind::Ring { 4 } else { 1 }
}

/// Tray bytes that a machine can be set to. The span is 0 for a tower.
#[derive(Clone, Debug, PartialEq, Eq)]
pub struct Stack {
    pub kind: Kind,
    pub span: u8,
    pub trays: Vec<u8>,
}

impl Stack {
    /// The stack of `count` trays that is home.
    pub fn home(kind: Kind, count: u8, span: u8) -> Self {
        Stack {
            kind,
            span,
            trays: (1..=count).collect(),
        }
    }

    /// A random stack of `count` trays.
    pub fn random(kind: Kind, count: u8, span: u8, random: &mut Random) -> Self {
        let mut stack = Stack::home(kind, count, span);
        random.shuffle(&mut stack.trays);
        if kind == Kind::Sided {
            let trays = stack.trays.iter_mut();
            trays.for_each(|tray| *tray |= random.byte() & 0x80);
        }
        stack
    }

    /// The number of trays.
    pub fn count(&self) -> u8 {
        self.trays.len() as u8
    }

    /// The 32 tray bytes.
    pub fn bytes(&self) -> TrayBytes {
        tray_bytes(&self.trays)
    }

    /// The command that loads the stack.
    pub fn load(&self, limit: u8) -> Vec<u8> {
        load_command(self.kind, limit, self.count(), self.span, &self.bytes())
    }

    /// What the search finds by the estimate of the console. `None` where it makes more than
    /// `most_looks` looks.
    pub fn search(&self, limit: u8, most_looks: u64) -> Option<Outcome> {
        let (count, bytes) = (self.count(), self.bytes());
        match self.kind {
            Kind::Plain => {
                let tower = PlainTower::new(count, &bytes).ok()?;
                search(&tower, &DualLookup(LookAhead(Gaps)), limit, most_looks)
            }
            Kind::Sided => {
                let tower = SidedTower::new(count, &bytes).ok()?;
                search(
                    &tower,
                    &DualLookup(LookAhead(Breakpoints)),
                    limit,
                    most_looks,
                )
            }
            Kind::Ring => {
                let ring = TrayRing::new(count, self.span, &bytes).ok()?;
                search(&ring, &DualLookup(LookAhead(HalfGaps)), limit, most_looks)
            }
        }
    }
}

/// A load with any operands. The span is left out for a tower.
pub fn load_command(kind: Kind, limit: u8, count: u8, span: u8, trays: &TrayBytes) -> Vec<u8> {
    let mut command = vec![letter(kind), limit, count];
    if kind == Kind::Ring {
        command.push(span);
    }
    command.extend_from_slice(trays);
    command
}

/// The command that grants some looks.
pub fn grant_command(looks: u32) -> Vec<u8> {
    let mut command = vec![b'W'];
    command.extend_from_slice(&looks.to_be_bytes());
    command
}
