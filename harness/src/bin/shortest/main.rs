//! Checks over all small stacks that each plan is shortest, against distances found breadth first.

mod breadth;
mod searches;

use std::error::Error;
use std::process::ExitCode;

use breadth::{Moves, Trays};
use harness::report::status;
use harness::stack::{Kind, Stack};
use peer::recursive::Outcome;
use searches::{TASKS_ON_TAPE, Task};

/// The most turns that a plain tower needs, for 2 trays and on.
const KNOWN_PLAIN: [u8; 6] = [1, 3, 4, 5, 7, 8];
/// The most turns that a sided tower needs, for 1 tray and on.
const KNOWN_SIDED: [u8; 5] = [1, 4, 6, 8, 10];
/// The largest rings that are checked.
const LARGEST_RING: usize = 6;

/// A task, and the length of a shortest plan within its limit, if there is one.
struct Case {
    task: Task,
    trays: Trays,
    expected: Option<u8>,
}

/// What is told of one kind and number of trays.
struct Row {
    states: usize,
    unreachable: usize,
    tasks: usize,
    most_turns: u8,
    looks: u64,
}

fn main() -> ExitCode {
    status(run())
}

/// Runs all checks. False where the most turns are not as known.
fn run() -> Result<bool, Box<dyn Error>> {
    println!("| kind | N | K | states | not reachable | tasks | most turns | looks |");
    println!("|---|---|---|---|---|---|---|---|");
    let mut as_known = true;
    for moves in all_moves() {
        let row = check(&moves)?;
        print_row(&moves, &row);
        if known(&moves).is_some_and(|known| known != row.most_turns) {
            println!("the most turns are known to be {:?}", known(&moves));
            as_known = false;
        }
    }
    println!("\nall plans are shortest");
    Ok(as_known)
}

/// The kinds and numbers of trays that are checked.
fn all_moves() -> impl Iterator<Item = Moves> {
    let tower = |kind| {
        move |count| Moves {
            kind,
            count,
            span: 0,
        }
    };
    let plain = (1..=7).map(tower(Kind::Plain));
    let sided = (1..=5).map(tower(Kind::Sided));
    let rings = (4..=LARGEST_RING).flat_map(|count| {
        let kind = Kind::Ring;
        (2..=count).map(move |span| Moves { kind, count, span })
    });
    plain.chain(sided).chain(rings)
}

/// The most turns that are known for a kind and number of trays.
fn known(moves: &Moves) -> Option<u8> {
    match moves.kind {
        Kind::Plain => KNOWN_PLAIN.get(moves.count.checked_sub(2)?).copied(),
        Kind::Sided => KNOWN_SIDED.get(moves.count.checked_sub(1)?).copied(),
        Kind::Ring => None,
    }
}

fn print_row(moves: &Moves, row: &Row) {
    let span = match moves.kind {
        Kind::Ring => moves.span.to_string(),
        Kind::Plain | Kind::Sided => String::new(),
    };
    println!(
        "| {:?} | {} | {span} | {} | {} | {} | {} | {} |",
        moves.kind, moves.count, row.states, row.unreachable, row.tasks, row.most_turns, row.looks
    );
}

/// Checks all searches on all states of a kind.
fn check(moves: &Moves) -> Result<Row, String> {
    let distances = moves.distances();
    let most_turns = distances.values().copied().max().unwrap_or(0);
    let states = moves.states();
    let mut cases = Vec::new();
    for trays in &states {
        cases.extend(cases_of(
            moves,
            trays,
            distances.get(trays).copied(),
            most_turns,
        ));
    }
    let mut looks = 0;
    for cases in cases.chunks(TASKS_ON_TAPE) {
        let tasks: Vec<_> = cases.iter().map(|case| case.task.clone()).collect();
        for (case, ours) in cases.iter().zip(searches::ours(&tasks)?) {
            check_case(moves, case, &ours)?;
            looks += ours.looks;
        }
    }
    Ok(Row {
        states: states.len(),
        unreachable: states.len() - distances.len(),
        tasks: cases.len(),
        most_turns,
        looks,
    })
}

/// The tasks for one state: with a limit that is far off, just enough, and one too low; where the
/// state cannot be brought home, with a limit that no other state needs.
fn cases_of(moves: &Moves, trays: &Trays, distance: Option<u8>, most_turns: u8) -> Vec<Case> {
    let case = |limit, expected| Case {
        task: Task {
            stack: stack(moves, trays),
            limit,
        },
        trays: trays.clone(),
        expected,
    };
    let Some(distance) = distance else {
        let above = 1 + LARGEST_RING - moves.count;
        return vec![case(most_turns + above as u8, None)];
    };
    let found = [64, distance].map(|limit| case(limit, Some(distance)));
    let below = distance.checked_sub(1).map(|limit| case(limit, None));
    found.into_iter().chain(below).collect()
}

/// The tray bytes of a state.
fn stack(moves: &Moves, trays: &Trays) -> Stack {
    let byte = |&tray: &i8| tray.unsigned_abs() | if tray < 0 { 0x80 } else { 0 };
    Stack {
        kind: moves.kind,
        span: moves.span as u8,
        trays: trays.iter().map(byte).collect(),
    }
}

/// Checks one outcome of the library, and that the peer's searches have the same.
fn check_case(moves: &Moves, case: &Case, ours: &Outcome) -> Result<(), String> {
    let length = ours.plan.as_ref().map(|plan| plan.len() as u8);
    if length != case.expected {
        return Err(format!(
            "{:?}: {ours:?}, expected {:?}",
            case.task, case.expected
        ));
    }
    if let Some(plan) = &ours.plan
        && !moves.brings_home(&case.trays, plan)
    {
        return Err(format!("{:?}: {plan:?} does not bring it home", case.task));
    }
    let recursive = searches::recursive(&case.task);
    if recursive.as_ref() != Some(ours) {
        return Err(format!(
            "{:?}: ours {ours:?}, recursive {recursive:?}",
            case.task
        ));
    }
    let in_doses = searches::in_doses(&case.task)?;
    if in_doses != *ours {
        return Err(format!(
            "{:?}: ours {ours:?}, in doses {in_doses:?}",
            case.task
        ));
    }
    Ok(())
}
