//! What the three searches find: the library's over tapes, and the peer's two.

use std::fmt::Debug;

use harness::ours;
use harness::stack::{Kind, Stack, grant_command};
use harness::told::Told;
use peer::estimates::{Breakpoints, DualLookup, Estimate, Gaps, HalfGaps, LookAhead};
use peer::machines::{Machine, PlainTower, SidedTower, TrayRing};
use peer::planner::{Planner, Progress, SHEET};
use peer::recursive::Outcome;

/// The looks that are granted to each task, which are enough for these stacks.
const GRANT: u32 = 1_000_000;
/// The tasks on one tape.
pub const TASKS_ON_TAPE: usize = 96;
/// The looks of a dose of the peer's planner.
const DOSE: u32 = 7;

/// A stack and a limit.
#[derive(Clone, Debug)]
pub struct Task {
    pub stack: Stack,
    pub limit: u8,
}

/// What the library's search finds for each task.
pub fn ours(tasks: &[Task]) -> Result<Vec<Outcome>, String> {
    let commands = tasks.iter().map(|task| {
        let load = task.stack.load(task.limit);
        [load, grant_command(GRANT), b"F".to_vec()].concat()
    });
    let tape = commands.collect::<Vec<_>>().concat();
    let replies = ours::replies(&tape).map_err(|fault| fault.to_string())?;
    let told = Told::read_all(&replies).ok_or("replies that cannot be read")?;
    if told.len() != 3 * tasks.len() {
        return Err(format!("{} replies to {} tasks", told.len(), tasks.len()));
    }
    told.chunks(3).map(outcome).collect()
}

/// The outcome that the replies to a load, a grant and a fetch tell.
fn outcome(told: &[Told]) -> Result<Outcome, String> {
    let (looks, plan) = match told {
        [
            Told::Accepted,
            Told::Found { length, looks },
            Told::Fetched { plan },
        ] if plan.len() == usize::from(*length) => (looks, Some(plan.clone())),
        [
            Told::Accepted,
            Told::NoPlan { looks },
            Told::Refused { number: 17 },
        ] => (looks, None),
        _ => return Err(format!("the replies {told:?}")),
    };
    let looks = u64::from(*looks);
    Ok(Outcome { looks, plan })
}

/// What the peer's recursive search finds.
pub fn recursive(task: &Task) -> Option<Outcome> {
    task.stack.search(task.limit, GRANT.into())
}

/// What the peer's planner finds in doses.
pub fn in_doses(task: &Task) -> Result<Outcome, String> {
    let (count, bytes) = (task.stack.count(), task.stack.bytes());
    match task.stack.kind {
        Kind::Plain => {
            let tower = PlainTower::new(count, &bytes).map_err(text)?;
            doses(tower, DualLookup(LookAhead(Gaps)), task.limit)
        }
        Kind::Sided => {
            let tower = SidedTower::new(count, &bytes).map_err(text)?;
            doses(tower, DualLookup(LookAhead(Breakpoints)), task.limit)
        }
        Kind::Ring => {
            let ring = TrayRing::new(count, task.stack.span, &bytes).map_err(text)?;
            doses(ring, DualLookup(LookAhead(HalfGaps)), task.limit)
        }
    }
}

fn text(fault: impl Debug) -> String {
    format!("the peer refuses: {fault:?}")
}

fn doses<M: Machine, E: Estimate<M>>(
    machine: M,
    estimate: E,
    limit: u8,
) -> Result<Outcome, String> {
    let mut planner = Planner::new(estimate);
    planner.load(machine, limit).map_err(text)?;
    loop {
        match planner.work(DOSE).map_err(text)? {
            Progress::Working { .. } => {}
            Progress::NoPlan { looks } => {
                let looks = u64::from(looks);
                return Ok(Outcome { looks, plan: None });
            }
            Progress::Found { length, looks } => {
                let mut sheet = [0; SHEET];
                planner.fetch(&mut sheet).map_err(text)?;
                let plan = Some(sheet[..usize::from(length)].to_vec());
                let looks = u64::from(looks);
                return Ok(Outcome { looks, plan });
            }
        }
    }
}
