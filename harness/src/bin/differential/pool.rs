//! Solved tasks: stacks, each with a limit, and what the recursive search finds for it.

use harness::random::Random;
use harness::stack::{KINDS, Kind, Stack};
use peer::recursive::Outcome;

/// The most looks of a task of the pool.
const MOST_LOOKS: u64 = 2_000;
/// The tasks of each kind.
const TASKS: usize = 500;
/// The limits that are tried where the search does not end within the highest.
const LOWER_LIMITS: [u8; 4] = [12, 8, 5, 3];

/// A stack with a limit, and how its search ends.
#[derive(Clone, Debug)]
pub struct Solved {
    pub stack: Stack,
    pub limit: u8,
    pub outcome: Outcome,
}

impl Solved {
    /// The command that loads the task.
    pub fn load(&self) -> Vec<u8> {
        self.stack.load(self.limit)
    }

    /// The number of looks of the whole search.
    pub fn looks(&self) -> u32 {
        self.outcome.looks as u32
    }
}

/// The tasks of all kinds.
pub struct Pool {
    kinds: [Vec<Solved>; 3],
}

impl Pool {
    /// Solves some random tasks.
    pub fn new(seed: u64) -> Self {
        let mut random = Random::new(seed);
        let kinds = KINDS.map(|kind| {
            let found = std::iter::from_fn(|| Some(solve(kind, &mut random)));
            found.flatten().take(TASKS).collect()
        });
        Pool { kinds }
    }

    /// A task of a kind.
    pub fn of(&self, kind: Kind, random: &mut Random) -> &Solved {
        let tasks = &self.kinds[kind as usize];
        &tasks[random.index(tasks.len())]
    }

    /// A task of any kind.
    pub fn any(&self, random: &mut Random) -> &Solved {
        let kind = random.pick(&KINDS);
        self.of(kind, random)
    }

    /// A task with a plan.
    pub fn found(&self, random: &mut Random) -> &Solved {
        loop {
            let solved = self.any(random);
            if solved.outcome.plan.is_some() {
                return solved;
            }
        }
    }
}

/// A small random stack, and a task for it.
fn solve(kind: Kind, random: &mut Random) -> Option<Solved> {
    let (low, high) = match kind {
        Kind::Plain => (1, 8),
        Kind::Sided => (1, 6),
        Kind::Ring => (4, 7),
    };
    let count = random.byte_between(low, high);
    let span = match kind {
        Kind::Ring => random.byte_between(2, count),
        Kind::Plain | Kind::Sided => 0,
    };
    let stack = Stack::random(kind, count, span, random);
    match stack.search(64, MOST_LOOKS) {
        Some(Outcome {
            plan: Some(plan), ..
        }) => limited(stack, plan.len() as u8, random),
        _ => {
            let limit = random.pick(&LOWER_LIMITS);
            solved(stack, limit)
        }
    }
}

/// A task whose limit is about the length of the plan, or far above it.
fn limited(stack: Stack, length: u8, random: &mut Random) -> Option<Solved> {
    let limit = match random.below(8) {
        0 => length.saturating_sub(1),
        1 => random.byte_between(0, length),
        2 => length,
        3 => length + 1,
        4 => random.byte_between(length, 64),
        _ => 64,
    };
    solved(stack, limit)
}

fn solved(stack: Stack, limit: u8) -> Option<Solved> {
    let outcome = stack.search(limit, MOST_LOOKS)?;
    Some(Solved {
        stack,
        limit,
        outcome,
    })
}
