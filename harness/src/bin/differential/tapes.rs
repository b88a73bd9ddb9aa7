//! The tapes that are tried, by families.

use harness::random::Random;
use harness::stack::{KINDS, Kind, Stack, grant_command};

use crate::faults;
use crate::pool::{Pool, Solved};

/// The most bytes of a tape that is read.
pub const LONGEST_TAPE: usize = 4_096;

/// Grants at the edges of what is accepted.
const EDGE_GRANTS: [u32; 14] = [
    0,
    1,
    2,
    255,
    256,
    9_999,
    10_000,
    999_999,
    1_000_000,
    1_000_001,
    0x0100_0000,
    0x8000_0000,
    0xffff_fffe,
    0xffff_ffff,
];

/// What makes a tape.
pub struct Maker<'p> {
    pub pool: &'p Pool,
    pub random: Random,
    /// Which tape of its family it is.
    pub index: u64,
}

/// A family of tapes, and how many of 100 tapes belong to it.
type Family<'p> = (u64, fn(&mut Maker<'p>) -> Vec<u8>);

/// The tape of a number under a seed.
pub fn tape(pool: &Pool, seed: u64, number: u64) -> Vec<u8> {
    let mut rest = number % 100;
    let random = Random::of(seed, number);
    let index = number / 100;
    for (weight, family) in Maker::FAMILIES {
        if rest < weight {
            let index = index * weight + rest;
            let mut maker = Maker {
                pool,
                random,
                index,
            };
            return family(&mut maker);
        }
        rest -= weight;
    }
    Vec::new()
}

impl<'p> Maker<'p> {
    const FAMILIES: [Family<'p>; 16] = [
        (12, Self::around_the_end),
        (14, Self::walk),
        (6, Self::lives),
        (8, Self::kinds_in_turn),
        (10, Self::faulty_loads),
        (6, Self::edge_loads),
        (6, Self::edge_grants),
        (5, Self::limits),
        (6, Self::cut),
        (10, Self::mutated),
        (3, Self::random_bytes),
        (3, Self::random_letters),
        (4, Self::valid_then_random),
        (2, Self::long),
        (4, Self::large),
        (1, Self::large_go),
    ];

    fn task(&mut self) -> Solved {
        self.pool.any(&mut self.random).clone()
    }

    fn task_of(&mut self, kind: Kind) -> Solved {
        self.pool.of(kind, &mut self.random).clone()
    }

    fn kind(&mut self) -> Kind {
        self.random.pick(&KINDS)
    }

    /// Some looks from 1 to `most`.
    fn looks(&mut self, most: u32) -> u32 {
        self.random.between(1, u64::from(most.max(1))) as u32
    }

    /// One command that asks where the planner stands.
    fn probe(&mut self) -> Vec<u8> {
        match self.random.below(8) {
            0 => grant_command(1),
            1 => b"G".to_vec(),
            2..=4 => b"F".to_vec(),
            5 => b"D".to_vec(),
            6 => grant_command(self.random.pick(&EDGE_GRANTS)),
            _ => self.task().load(),
        }
    }

    /// Grants that end just before, at and just after the last look of a search.
    fn around_the_end(&mut self) -> Vec<u8> {
        let task = self.task();
        let mut tape = task.load();
        for grant in self.grants_around(task.looks()) {
            tape.extend(grant_command(grant));
            if self.random.once_in(40) {
                tape.extend(b"F");
            }
        }
        for _ in 0..self.random.below(5) {
            tape.extend(self.probe());
        }
        tape
    }

    /// Grants whose sum is about a number of looks.
    fn grants_around(&mut self, all: u32) -> Vec<u32> {
        let part = self.looks(all.saturating_sub(1));
        match self.random.below(10) {
            0 => vec![all],
            1 => vec![all + 1],
            2 => vec![all - 1],
            3 => vec![all - 1, 1],
            4 => vec![all - 1, 2],
            5 => vec![part, all.saturating_sub(part)],
            6 => vec![part, all.saturating_sub(part) + 1],
            7 => vec![1; all.min(700) as usize],
            8 => vec![self.looks(9); all.min(500) as usize / 5 + 1],
            _ => vec![part, all.saturating_sub(part + 1), 1],
        }
    }

    /// Tasks from the load to the fetch.
    fn lives(&mut self) -> Vec<u8> {
        let mut tape = Vec::new();
        for _ in 0..1 + self.random.below(4) {
            let task = self.task();
            tape.extend(task.load());
            let mut left = task.looks();
            while left > 0 {
                let grant = self.looks(left);
                tape.extend(grant_command(grant));
                left -= grant;
                if self.random.once_in(8) {
                    tape.extend(self.probe());
                }
            }
            tape.extend(b"FF");
        }
        tape.truncate(LONGEST_TAPE);
        tape
    }

    /// Any commands in any order.
    fn walk(&mut self) -> Vec<u8> {
        let mut tape = Vec::new();
        for _ in 0..self.random.between(1, 24) {
            let command = match self.random.below(16) {
                0..=4 => self.task().load(),
                5..=7 => grant_command(self.looks(40)),
                8 => grant_command(self.looks(3_000)),
                9 => grant_command(self.random.pick(&EDGE_GRANTS)),
                10 => b"G".to_vec(),
                11 | 12 => b"F".to_vec(),
                13 | 14 => b"D".to_vec(),
                _ => self.faulty_load(),
            };
            tape.extend(command);
        }
        tape
    }

    /// A load of one kind after a task of another kind (or of the same one) has come to any state.
    fn kinds_in_turn(&mut self) -> Vec<u8> {
        let mut tape = Vec::new();
        let start = self.index as usize;
        for step in 0..self.random.between(2, 6) {
            let at = start + step as usize * (1 + start / 9);
            let task = self.task_of(KINDS[at % 3]);
            tape.extend(task.load());
            if self.random.once_in(3) {
                tape.extend(b"F");
            }
            tape.extend(self.some_end(&task));
            for _ in 0..self.random.below(3) {
                tape.extend(b"F");
            }
        }
        tape
    }

    /// Grants that bring a task to its end or not, or a drop, or nothing.
    fn some_end(&mut self, task: &Solved) -> Vec<u8> {
        match self.random.below(8) {
            0 => b"D".to_vec(),
            1 => [grant_command(self.looks(task.looks())), b"D".to_vec()].concat(),
            2 => grant_command(task.looks() - 1),
            3 => Vec::new(),
            4 => b"G".to_vec(),
            _ => grant_command(task.looks()),
        }
    }

    /// A load with any set of faults.
    fn faulty_load(&mut self) -> Vec<u8> {
        let kind = self.kind();
        let set = self.random.byte_between(1, faults::SETS - 1);
        faults::load(kind, set, &mut self.random)
    }

    /// Loads with each set of faults in turn, while a task is at work or not.
    fn faulty_loads(&mut self) -> Vec<u8> {
        let sets = u64::from(faults::SETS);
        let mut tape = Vec::new();
        if (self.index / (3 * sets)).is_multiple_of(2) {
            tape.extend(self.task().load());
        }
        let kind = KINDS[(self.index % 3) as usize];
        let set = (self.index / 3 % sets) as u8;
        tape.extend(faults::load(kind, set, &mut self.random));
        for _ in 0..self.random.below(3) {
            tape.extend(self.faulty_load());
        }
        match self.random.below(4) {
            0 => {
                let short = tape.len() - self.random.between(1, 35) as usize;
                tape.truncate(short);
            }
            1 => tape.extend(grant_command(self.looks(50))),
            _ => tape.extend(self.probe_small()),
        }
        tape
    }

    /// A probe that makes few looks whatever is at work.
    fn probe_small(&mut self) -> Vec<u8> {
        match self.random.below(3) {
            0 => b"F".to_vec(),
            1 => b"D".to_vec(),
            _ => grant_command(1),
        }
    }

    /// Loads whose operands are at their edges.
    fn edge_loads(&mut self) -> Vec<u8> {
        let mut tape = Vec::new();
        for _ in 0..1 + self.random.below(6) {
            let kind = self.kind();
            tape.extend(faults::edge_load(kind, &mut self.random));
            match self.random.below(6) {
                0 => tape.extend(grant_command(1)),
                1 => tape.extend(grant_command(self.looks(30))),
                2 => tape.extend(b"F"),
                3 => tape.extend(b"D"),
                4 => tape.extend([&grant_command(1)[..], b"FD"].concat()),
                _ => {}
            }
        }
        tape
    }

    /// Grants at their edges, while a task is at work or not, some with a part left out.
    fn edge_grants(&mut self) -> Vec<u8> {
        let mut tape = Vec::new();
        if !self.random.once_in(3) {
            tape.extend(self.task().load());
        }
        for _ in 0..1 + self.random.below(5) {
            tape.extend(grant_command(self.random.pick(&EDGE_GRANTS)));
            if self.random.once_in(6) {
                tape.extend(self.probe());
            }
        }
        if self.random.once_in(4) {
            tape.truncate(tape.len() - 1 - self.random.index(4));
        }
        tape
    }

    /// One stack with limits about the length of its plan.
    fn limits(&mut self) -> Vec<u8> {
        let task = self.pool.found(&mut self.random);
        let length = task.outcome.plan.as_ref().map_or(0, Vec::len) as u8;
        let mut limits = [
            0,
            length.saturating_sub(2),
            length.saturating_sub(1),
            length,
            length + 1,
            64,
        ];
        self.random.shuffle(&mut limits);
        let tasks = limits.map(|limit| {
            let grant = grant_command(self.random.pick(&[1_000_000, task.looks()]));
            [task.stack.load(limit), grant, b"F".to_vec()].concat()
        });
        tasks.concat()
    }

    /// A tape of tasks that have few looks.
    fn base(&mut self) -> Vec<u8> {
        match self.random.below(4) {
            0 => self.around_the_end(),
            1 => self.walk(),
            2 => self.kinds_in_turn(),
            _ => {
                let task = self.task();
                [task.load(), grant_command(task.looks()), b"FD".to_vec()].concat()
            }
        }
    }

    /// A tape that is cut anywhere.
    fn cut(&mut self) -> Vec<u8> {
        let mut tape = self.base();
        tape.truncate(self.random.index(tape.len() + 1));
        tape
    }

    /// A tape with a bit flipped, a byte left out, put in or changed, a few times.
    fn mutated(&mut self) -> Vec<u8> {
        let mut tape = self.base();
        for _ in 0..1 + self.random.below(3) {
            let at = self.random.index(tape.len());
            match self.random.below(6) {
                0 if !tape.is_empty() => drop(tape.remove(at)),
                1 => tape.insert(at, self.random.byte()),
                2 => tape.insert(at, self.random.pick(b"PSRWGFD")),
                3 if !tape.is_empty() => tape[at] = self.random.byte(),
                _ if !tape.is_empty() => tape[at] ^= 1 << self.random.below(8),
                _ => {}
            }
        }
        tape
    }

    fn random_bytes(&mut self) -> Vec<u8> {
        let length = self.random.below(120);
        (0..length).map(|_| self.random.byte()).collect()
    }

    /// Letters of commands and small numbers, in any order.
    fn random_letters(&mut self) -> Vec<u8> {
        let length = self.random.below(160);
        let byte = |_| match self.random.below(8) {
            0..=2 => self.random.pick(b"PSRWGFD"),
            3 => self.random.pick(b"FGD"),
            _ => self.random.byte_between(0, 6),
        };
        (0..length).map(byte).collect()
    }

    /// A valid tape, and then any bytes.
    fn valid_then_random(&mut self) -> Vec<u8> {
        let mut tape = self.base();
        if self.random.once_in(2) {
            tape.extend(self.random_bytes());
        } else {
            tape.extend(self.random_letters());
        }
        tape
    }

    /// Tapes of as many bytes as are read, and of about as many.
    fn long(&mut self) -> Vec<u8> {
        let lengths = [4_096, 4_097, 4_096, 4_095, 4_097, 4_098, 0, 6_000];
        let length = lengths[self.index as usize % lengths.len()];
        let fill = self.random.below(4);
        let mut tape = Vec::new();
        while tape.len() < length {
            let command = match (fill, self.random.below(12)) {
                (0, _) if !tape.is_empty() => b"F".to_vec(),
                (1, _) => b"D".to_vec(),
                (2, 0) => self.task().load(),
                (2, 1) => b"G".to_vec(),
                (2, _) => grant_command(self.looks(5)),
                (_, 0..=3) => self.task().load(),
                (_, 4) => b"G".to_vec(),
                _ => self.probe_small(),
            };
            tape.extend(command);
        }
        if self.random.once_in(2) {
            tape.truncate(length);
        } else {
            self.fill_up(&mut tape, length);
        }
        tape
    }

    /// Brings a tape to a length with whole commands at its end.
    fn fill_up(&mut self, tape: &mut Vec<u8>, length: usize) {
        tape.truncate(length.saturating_sub(60));
        tape.resize(length.saturating_sub(5), b'F');
        if length > 0 {
            tape.extend(grant_command(1));
        }
    }

    fn large_stack(&mut self) -> Stack {
        let kind = self.kind();
        let count = self.random.byte_between(9, 32);
        let span = match kind {
            Kind::Ring => self.random.byte_between(2, count),
            Kind::Plain | Kind::Sided => 0,
        };
        if self.random.once_in(3) {
            let mut stack = Stack::home(kind, count, span);
            let (a, b) = (
                self.random.index(count.into()),
                self.random.index(count.into()),
            );
            stack.trays[a.min(b)..=a.max(b)].reverse();
            return stack;
        }
        Stack::random(kind, count, span, &mut self.random)
    }

    /// Large stacks, and few looks.
    fn large(&mut self) -> Vec<u8> {
        let mut tape = Vec::new();
        for _ in 0..1 + self.random.below(2) {
            let limit = self.random.pick(&[64, 64, 64, 40, 30, 20, 10, 3, 0]);
            tape.extend(self.large_stack().load(limit));
            for _ in 0..1 + self.random.below(5) {
                tape.extend(grant_command(self.looks(120)));
            }
            tape.extend(self.random.pick::<&[u8]>(&[b"F", b"D", b"FD", b""]));
        }
        tape
    }

    /// A large stack, and as many looks as G grants.
    fn large_go(&mut self) -> Vec<u8> {
        let limit = self.random.pick(&[64, 64, 32, 16]);
        let stack = self.large_stack();
        if stack.count() > 16 && !self.index.is_multiple_of(4) {
            return [stack.load(limit), grant_command(300), b"FD".to_vec()].concat();
        }
        [&stack.load(limit)[..], b"GFD"].concat()
    }
}
