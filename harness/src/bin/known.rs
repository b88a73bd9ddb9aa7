//! Plan lengths that are known: of sided towers with every door turned away, the most turns of
//! plain towers, and the means over random plain towers.

use std::error::Error;
use std::process::ExitCode;

use harness::options::Options;
use harness::ours::Console;
use harness::random::Random;
use harness::report::status;
use harness::stack::{Kind, Stack};
use harness::task::{End, run_task};
use peer::estimates::Gaps;
use peer::machines::PlainTower;
use peer::recursive::search;

/// The turns for the sided tower -1, -2 and so on, for 2 trays and on.
const ALL_AWAY: [(u8, usize); 11] = [
    (2, 4),
    (3, 6),
    (4, 8),
    (5, 10),
    (6, 12),
    (7, 14),
    (8, 15),
    (9, 17),
    (10, 18),
    (11, 19),
    (12, 21),
];
/// The most turns that a plain tower needs.
const MOST_TURNS: [(u8, usize); 6] = [(2, 1), (3, 3), (4, 4), (5, 5), (6, 7), (7, 8)];
/// The mean turns of random plain towers.
const MEANS: [(u8, f64); 5] = [(8, 6.7), (12, 10.7), (16, 14.8), (20, 18.8), (24, 22.7)];
/// How far a mean may be off.
const OFF: f64 = 0.3;
/// The highest limit.
const LIMIT: u8 = 64;

fn main() -> ExitCode {
    status(run())
}

/// Prints all tables. False where a number is not as known.
fn run() -> Result<bool, Box<dyn Error>> {
    let numbers = [
        ("most-looks", 30_000_000),
        ("most-looks-over-gaps", 1_000_000),
        ("stacks", 200),
        ("seed", 20_260_717),
    ];
    let options = Options::read(&numbers, &[])?;
    let mut console = Console::new();
    let most_looks = options.number("most-looks").min(2_000_000_000) as u32;
    let mut as_known = all_away(&mut console, most_looks)?;
    as_known &= most_turns(&mut console, most_looks)?;
    as_known &= means(&mut console, most_looks, &options)?;
    println!("\n{}all as known", if as_known { "" } else { "not " });
    Ok(as_known)
}

/// The towers -1 to -N. A tower that takes too many looks is left out, and so is each after one that
/// takes half as many.
fn all_away(console: &mut Console, most_looks: u32) -> Result<bool, Box<dyn Error>> {
    println!("| sided tower | turns | known | looks |");
    println!("|---|---|---|---|");
    let mut as_known = true;
    for (count, known) in ALL_AWAY {
        let stack = Stack {
            kind: Kind::Sided,
            span: 0,
            trays: (1..=count).map(|tray| tray | 0x80).collect(),
        };
        match run_task(console, &stack, LIMIT, most_looks)? {
            End::Found { plan, looks } => {
                println!("| -1 to -{count} | {} | {known} | {looks} |", plan.len());
                as_known &= plan.len() == known;
                if looks > most_looks / 2 {
                    break;
                }
            }
            End::NoPlan { looks } => {
                println!("| -1 to -{count} | none | {known} | {looks} |");
                as_known = false;
            }
            End::Dropped { looks } => {
                println!("| -1 to -{count} | | {known} | over {looks} |");
                break;
            }
        }
    }
    Ok(as_known)
}

/// The most turns over all plain towers of so many trays.
fn most_turns(console: &mut Console, most_looks: u32) -> Result<bool, Box<dyn Error>> {
    println!("\n| plain towers of | towers | most turns | known | mean looks |");
    println!("|---|---|---|---|---|");
    let mut as_known = true;
    for (count, known) in MOST_TURNS {
        let mut ends = Ends::default();
        let mut trays: Vec<u8> = (1..=count).collect();
        each_order(&mut trays, 0, &mut |trays| {
            let stack = plain(trays.to_vec());
            ends.count(run_task(console, &stack, LIMIT, most_looks)?);
            Ok(())
        })?;
        let (most, looks) = (ends.most_turns, ends.mean_looks());
        println!(
            "| {count} trays | {} | {most} | {known} | {looks:.1} |",
            ends.found
        );
        as_known &= most == known && ends.others == 0;
    }
    Ok(as_known)
}

fn plain(trays: Vec<u8>) -> Stack {
    let kind = Kind::Plain;
    Stack {
        kind,
        span: 0,
        trays,
    }
}

/// Visits the trays in each order, where those before `from` stay.
fn each_order(
    trays: &mut [u8],
    from: usize,
    visit: &mut impl FnMut(&[u8]) -> Result<(), Box<dyn Error>>,
) -> Result<(), Box<dyn Error>> {
    if from == trays.len() {
        return visit(trays);
    }
    for other in from..trays.len() {
        trays.swap(from, other);
        each_order(trays, from + 1, visit)?;
        trays.swap(from, other);
    }
    Ok(())
}

/// How some searches ended.
#[derive(Debug, Default)]
struct Ends {
    found: u64,
    others: u64,
    turns: usize,
    most_turns: usize,
    looks: u64,
}

impl Ends {
    fn count(&mut self, end: End) {
        match end {
            End::Found { plan, looks } => self.found(plan.len(), looks.into()),
            End::NoPlan { .. } | End::Dropped { .. } => self.others += 1,
        }
    }

    fn found(&mut self, turns: usize, looks: u64) {
        self.found += 1;
        self.turns += turns;
        self.most_turns = self.most_turns.max(turns);
        self.looks += looks;
    }

    fn mean_turns(&self) -> f64 {
        self.turns as f64 / self.found.max(1) as f64
    }

    fn mean_looks(&self) -> f64 {
        self.looks as f64 / self.found.max(1) as f64
    }
}

/// The means over random plain towers. Towers that take too many looks are left out, and counted.
fn means(
    console: &mut Console,
    most_looks: u32,
    options: &Options,
) -> Result<bool, Box<dyn Error>> {
    println!(
        "\n| random plain towers of | towers | mean turns | known | mean looks | left out | mean looks over gaps | left out |"
    );
    println!("|---|---|---|---|---|---|---|---|");
    let mut as_known = true;
    for (count, known) in MEANS {
        let mut random = Random::of(options.number("seed"), count.into());
        let (mut piled, mut gaps) = (Ends::default(), Ends::default());
        for _ in 0..options.number("stacks") {
            let stack = Stack::random(Kind::Plain, count, 0, &mut random);
            piled.count(run_task(console, &stack, LIMIT, most_looks)?);
            over_gaps(&stack, options.number("most-looks-over-gaps"), &mut gaps);
        }
        let turns = piled.mean_turns();
        println!(
            "| {count} trays | {} | {turns:.2} | {known} | {:.1} | {} | {:.1} | {} |",
            piled.found,
            piled.mean_looks(),
            piled.others,
            gaps.mean_looks(),
            gaps.others
        );
        as_known &= (turns - known).abs() <= OFF && piled.others == 0;
    }
    Ok(as_known)
}

/// The peer's search over the count of gaps alone.
fn over_gaps(stack: &Stack, most_looks: u64, ends: &mut Ends) {
    let tower = PlainTower::new(stack.count(), &stack.bytes()).ok();
    let outcome = tower.and_then(|tower| search(&tower, &Gaps, LIMIT, most_looks));
    match outcome.and_then(|outcome| Some((outcome.plan?, outcome.looks))) {
        Some((plan, looks)) => ends.found(plan.len(), looks),
        None => ends.others += 1,
    }
}
