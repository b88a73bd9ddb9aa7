//! Looks per second: of the library through its C functions, and of the peer's planner. It fails
//! where the library makes fewer.

use std::error::Error;
use std::process::ExitCode;
use std::time::{Duration, Instant};

use harness::options::Options;
use harness::ours::Console;
use harness::random::Random;
use harness::report::status;
use harness::stack::{Kind, Stack, grant_command};
use harness::task::ask;
use harness::told::Told;
use peer::estimates::{Breakpoints, DualLookup, Estimate, Gaps, HalfGaps, LookAhead};
use peer::machines::{Machine, PlainTower, SidedTower, TrayRing};
use peer::planner::{Planner, Progress};

/// What is measured: a kind, a number of trays, and the span of a ring.
const ROWS: [(Kind, u8, u8); 8] = [
    (Kind::Plain, 8, 0),
    (Kind::Plain, 16, 0),
    (Kind::Plain, 24, 0),
    (Kind::Plain, 32, 0),
    (Kind::Sided, 8, 0),
    (Kind::Sided, 16, 0),
    (Kind::Ring, 8, 4),
    (Kind::Ring, 16, 4),
];
/// The stacks of a row.
const STACKS: usize = 12;
/// The looks that are granted to each stack, after which its task is dropped.
const GRANT: u32 = 2_000;
/// A stack whose search ends within so many looks is passed over, so that loads cost little.
const TOO_FEW: u64 = 300;
/// The least time of a measured run.
const LEAST_TIME: Duration = Duration::from_millis(250);
/// The highest limit.
const LIMIT: u8 = 64;

/// One side of the measurement.
trait Side {
    /// Grants looks to each stack, and gives what is told of each.
    fn pass(&mut self) -> Result<Vec<Told>, String>;
}

/// The console of the library, and the load of each stack.
struct Ours {
    console: Console,
    loads: Vec<Vec<u8>>,
    grant: Vec<u8>,
}

impl Side for Ours {
    fn pass(&mut self) -> Result<Vec<Told>, String> {
        let console = &mut self.console;
        let task = |load: &Vec<u8>| {
            let accepted = ask(console, load) == Some(Told::Accepted);
            let told = ask(console, &self.grant).filter(|_| accepted);
            if let Some(Told::Working { .. }) = told {
                ask(console, b"D");
            }
            told.ok_or_else(|| format!("the library refuses a load {load:?}"))
        };
        self.loads.iter().map(task).collect()
    }
}

/// A planner of the peer, and how a stack is made a machine.
struct Peer<'s, M, E> {
    planner: Planner<M, E>,
    stacks: &'s [Stack],
    machine: fn(&Stack) -> Option<M>,
}

impl<M: Machine, E: Estimate<M>> Side for Peer<'_, M, E> {
    fn pass(&mut self) -> Result<Vec<Told>, String> {
        let planner = &mut self.planner;
        let task = |stack: &Stack| {
            let machine = (self.machine)(stack).ok_or("the peer refuses a stack")?;
            let loaded = planner.load(machine, LIMIT);
            let told = loaded.and_then(|()| planner.work(GRANT));
            if planner.is_at_work() {
                planner.drop_task().map_err(|fault| format!("{fault:?}"))?;
            }
            told.map(progress).map_err(|fault| format!("{fault:?}"))
        };
        self.stacks.iter().map(task).collect()
    }
}

/// The reply that tells a progress.
fn progress(progress: Progress) -> Told {
    match progress {
        Progress::Working { looks } => Told::Working { looks },
        Progress::Found { length, looks } => Told::Found { length, looks },
        Progress::NoPlan { looks } => Told::NoPlan { looks },
    }
}

/// The peer's planner for a kind.
fn peer<'s>(kind: Kind, stacks: &'s [Stack]) -> Box<dyn Side + 's> {
    match kind {
        Kind::Plain => Box::new(Peer {
            planner: Planner::new(DualLookup(LookAhead(Gaps))),
            stacks,
            machine: |stack| PlainTower::new(stack.count(), &stack.bytes()).ok(),
        }),
        Kind::Sided => Box::new(Peer {
            planner: Planner::new(DualLookup(LookAhead(Breakpoints))),
            stacks,
            machine: |stack| SidedTower::new(stack.count(), &stack.bytes()).ok(),
        }),
        Kind::Ring => Box::new(Peer {
            planner: Planner::new(DualLookup(LookAhead(HalfGaps))),
            stacks,
            machine: |stack| TrayRing::new(stack.count(), stack.span, &stack.bytes()).ok(),
        }),
    }
}

fn main() -> ExitCode {
    status(run())
}

/// Measures all rows. False where the library is slower in one.
fn run() -> Result<bool, Box<dyn Error>> {
    let mut as_fast = true;
    let options = Options::read(&[("runs", 5), ("seed", 20_260_717)], &[])?;
    println!("| machine | looks of a pass | ours, looks/s | peer, looks/s | ours/peer |");
    println!("|---|---|---|---|---|");
    for (kind, count, span) in ROWS {
        let mut random = Random::of(options.number("seed"), u64::from(count));
        let stacks: Vec<_> =
            std::iter::repeat_with(|| Stack::random(kind, count, span, &mut random))
                .filter(|stack| stack.search(LIMIT, TOO_FEW).is_none())
                .take(STACKS)
                .collect();
        let (looks, ours, peer) = measure(kind, &stacks, options.number("runs"))?;
        let ratio = ours / peer;
        as_fast &= ratio >= 1.0;
        let span = if kind == Kind::Ring {
            format!(" K {span}")
        } else {
            String::new()
        };
        println!("| {kind:?} {count}{span} | {looks} | {ours:.0} | {peer:.0} | {ratio:.2} |");
    }
    let in_all = if as_fast { "all rows" } else { "not all rows" };
    println!("\nours at least as fast in {in_all}");
    Ok(as_fast)
}

/// The looks of a pass over some stacks, and the best looks per second of both sides.
fn measure(kind: Kind, stacks: &[Stack], runs: u64) -> Result<(u64, f64, f64), Box<dyn Error>> {
    let mut ours = Ours {
        console: Console::new(),
        loads: stacks.iter().map(|stack| stack.load(LIMIT)).collect(),
        grant: grant_command(GRANT),
    };
    let mut peer = peer(kind, stacks);
    let told = ours.pass()?;
    if told != peer.pass()? {
        return Err("the replies of the two sides differ".into());
    }
    let looks = told.iter().map(looks_of).sum();
    let passes = passes(&mut ours)?.max(passes(&mut *peer)?);
    let mut best = [0.0_f64; 2];
    for _ in 0..runs {
        let sides: [&mut dyn Side; 2] = [&mut ours, &mut *peer];
        for (side, best) in sides.into_iter().zip(&mut best) {
            let time = time(side, passes)?;
            *best = best.max((looks * passes) as f64 / time.as_secs_f64());
        }
    }
    Ok((looks, best[0], best[1]))
}

/// The looks that are told.
fn looks_of(told: &Told) -> u64 {
    match *told {
        Told::Working { looks } | Told::Found { looks, .. } | Told::NoPlan { looks } => {
            looks.into()
        }
        _ => 0,
    }
}

/// How many passes take the least time of a run.
fn passes(side: &mut dyn Side) -> Result<u64, String> {
    let mut passes = 1;
    while time(side, passes)? < LEAST_TIME {
        passes *= 2;
    }
    Ok(passes)
}

/// The time of some passes.
fn time(side: &mut dyn Side, passes: u64) -> Result<Duration, String> {
    let begin = Instant::now();
    for _ in 0..passes {
        side.pass()?;
    }
    Ok(begin.elapsed())
}
