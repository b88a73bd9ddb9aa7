//! Distances from home, found breadth first. The moves here are written on their own, apart from
//! any machine of the planner.

use std::collections::{HashMap, VecDeque};

use harness::stack::Kind;

/// Trays from the top or from place 1, negative where a door is turned away.
pub type Trays = Vec<i8>;

/// A kind of machine with its number of trays, and its span if it is a ring.
#[derive(Clone, Copy, Debug, PartialEq, Eq)]
pub struct Moves {
    pub kind: Kind,
    pub count: usize,
    pub span: usize,
}

impl Moves {
    /// The turns.
    pub fn turns(&self) -> std::ops::RangeInclusive<usize> {
        match self.kind {
            Kind::Plain => 2..=self.count,
            Kind::Sided | Kind::Ring => 1..=self.count,
        }
    }

    /// The trays after a turn.
    pub fn after(&self, trays: &[i8], turn: usize) -> Trays {
        let mut after = trays.to_vec();
        match self.kind {
            Kind::Plain => {
                for place in 0..turn {
                    after[place] = trays[turn - 1 - place];
                }
            }
            Kind::Sided => {
                for place in 0..turn {
                    after[place] = -trays[turn - 1 - place];
                }
            }
            Kind::Ring => {
                for step in 0..self.span {
                    let to = (turn - 1 + step) % self.count;
                    let from = (turn - 1 + self.span - 1 - step) % self.count;
                    after[to] = trays[from];
                }
            }
        }
        after
    }

    /// The trays at home.
    pub fn home(&self) -> Trays {
        (1..=self.count as i8).collect()
    }

    /// Whether a plan brings trays home.
    pub fn brings_home(&self, trays: &[i8], plan: &[u8]) -> bool {
        let mut trays = trays.to_vec();
        for &turn in plan {
            let turn = usize::from(turn);
            if !self.turns().contains(&turn) {
                return false;
            }
            trays = self.after(&trays, turn);
        }
        trays == self.home()
    }

    /// How many turns each state that can be brought home needs. A turn made twice leads back, so
    /// these are the distances from home.
    pub fn distances(&self) -> HashMap<Trays, u8> {
        let home = self.home();
        let mut distances = HashMap::from([(home.clone(), 0)]);
        let mut queue = VecDeque::from([(home, 0)]);
        while let Some((trays, distance)) = queue.pop_front() {
            for turn in self.turns() {
                let after = self.after(&trays, turn);
                if !distances.contains_key(&after) {
                    distances.insert(after.clone(), distance + 1);
                    queue.push_back((after, distance + 1));
                }
            }
        }
        distances
    }

    /// All states, those that cannot be brought home among them.
    pub fn states(&self) -> Vec<Trays> {
        let mut states = vec![Vec::new()];
        for _ in 0..self.count {
            states = states
                .iter()
                .flat_map(|trays| self.extended(trays))
                .collect();
        }
        states
    }

    /// The trays with each tray more that may stand below them.
    fn extended(&self, trays: &Trays) -> Vec<Trays> {
        let count = self.count as i8;
        let unused = (1..=count).filter(|tray| !trays.contains(tray) && !trays.contains(&-tray));
        let sides: &[i8] = if self.kind == Kind::Sided {
            &[1, -1]
        } else {
            &[1]
        };
        let more = unused.flat_map(|tray| sides.iter().map(move |side| side * tray));
        more.map(|tray| [&trays[..], &[tray]].concat()).collect()
    }
}
