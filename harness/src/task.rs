//! One task on a console that is kept.

use std::fmt;

use crate::ours::Console;
use crate::stack::{Stack, grant_command};
use crate::told::Told;

/// The most looks of one grant.
pub const HIGHEST_GRANT: u32 = 1_000_000;

/// How a task ended.
#[derive(Clone, Debug, PartialEq, Eq)]
pub enum End {
    Found { plan: Vec<u8>, looks: u32 },
    NoPlan { looks: u32 },
    Dropped { looks: u32 },
}

/// A reply that does not fit the command, or none.
#[derive(Clone, Debug, PartialEq, Eq)]
pub struct Unexpected {
    pub command: Vec<u8>,
    pub told: Option<Told>,
}

impl fmt::Display for Unexpected {
    fn fmt(&self, f: &mut fmt::Formatter<'_>) -> fmt::Result {
        write!(f, "command {:?} was answered {:?}", self.command, self.told)
    }
}

impl std::error::Error for Unexpected {}

/// Runs one command, and reads its reply.
pub fn ask(console: &mut Console, command: &[u8]) -> Option<Told> {
    let mut reply = [0; 66];
    let ran = console.run(command, 0, &mut reply).ok()?;
    let (told, rest) = Told::read(reply.get(..ran.count)?)?;
    (ran.next == command.len() && rest.is_empty()).then_some(told)
}

/// Runs a command that is answered by "accepted".
fn accepted(console: &mut Console, command: &[u8]) -> Result<(), Unexpected> {
    match ask(console, command) {
        Some(Told::Accepted) => Ok(()),
        told => Err(unexpected(command, told)),
    }
}

fn unexpected(command: &[u8], told: Option<Told>) -> Unexpected {
    let command = command.to_vec();
    Unexpected { command, told }
}

/// Loads a stack and grants looks until the search ends, or until `most_looks` are made; then the
/// task is dropped.
pub fn run_task(
    console: &mut Console,
    stack: &Stack,
    limit: u8,
    most_looks: u32,
) -> Result<End, Unexpected> {
    accepted(console, &stack.load(limit))?;
    let mut granted = 0;
    while granted < most_looks {
        let grant = HIGHEST_GRANT.min(most_looks - granted);
        granted += grant;
        let command = grant_command(grant);
        match ask(console, &command) {
            Some(Told::Working { looks }) if looks == granted => {}
            Some(Told::NoPlan { looks }) => return Ok(End::NoPlan { looks }),
            Some(Told::Found { length, looks }) => return fetch(console, length, looks),
            told => return Err(unexpected(&command, told)),
        }
    }
    accepted(console, b"D")?;
    Ok(End::Dropped { looks: granted })
}

fn fetch(console: &mut Console, length: u8, looks: u32) -> Result<End, Unexpected> {
    match ask(console, b"F") {
        Some(Told::Fetched { plan }) if plan.len() == usize::from(length) => {
            Ok(End::Found { plan, looks })
        }
        told => Err(unexpected(b"F", told)),
    }
}
