//! What was met: the replies and refusals.

use harness::told::Told;

/// The letters of the replies.
const LETTERS: [u8; 6] = *b"ABYNTE";
/// The refusals that a tape, or a call of the console, can come to in few looks.
const REFUSALS: [usize; 17] = [1, 2, 3, 4, 5, 6, 7, 8, 9, 10, 12, 13, 14, 15, 16, 17, 18];
/// The refusal that needs 2,000,000,000 looks.
const NEEDS_LONG: usize = 16;

/// Counts of what was met.
#[derive(Clone, Debug, Default)]
pub struct Tally {
    pub tapes: u64,
    pub calls: u64,
    pub commands: u64,
    pub looks: u64,
    letters: [u64; 6],
    refusals: [u64; 19],
}

impl Tally {
    /// Counts the replies to a whole tape.
    pub fn tape(&mut self, replies: &[u8]) {
        self.tapes += 1;
        for told in Told::read_all(replies).unwrap_or_default() {
            self.told(&told);
        }
    }

    /// Counts the reply to one command.
    pub fn told(&mut self, told: &Told) {
        let letter = LETTERS.iter().position(|&letter| letter == told.letter());
        if let Some(at) = letter {
            self.letters[at] += 1;
        }
        match told {
            Told::Refused { number: 1 } => {}
            _ => self.commands += 1,
        }
        match *told {
            Told::Refused { number } => self.refused(number),
            Told::Found { looks, .. } | Told::NoPlan { looks } => self.looks += u64::from(looks),
            _ => {}
        }
    }

    /// Counts a refusal.
    pub fn refused(&mut self, number: u8) {
        if let Some(count) = self.refusals.get_mut(usize::from(number)) {
            *count += 1;
        }
    }

    /// What was met no time, of the reply letters and the refusals.
    pub fn missing(&self, long: bool) -> Vec<String> {
        let letters = LETTERS
            .iter()
            .zip(self.letters)
            .filter(|&(_, met)| met == 0);
        let letters = letters.map(|(&letter, _)| format!("reply {}", char::from(letter)));
        let refusals = REFUSALS
            .into_iter()
            .filter(|&number| self.refusals[number] == 0 && (long || number != NEEDS_LONG));
        let refusals = refusals.map(|number| format!("refusal {number}"));
        letters.chain(refusals).collect()
    }

    /// Prints the counts as a table.
    pub fn print(&self) {
        println!("| met | times |");
        println!("|---|---|");
        println!("| tapes | {} |", self.tapes);
        println!("| calls of a kept console | {} |", self.calls);
        println!("| commands run | {} |", self.commands);
        println!("| looks of the searches that ended | {} |", self.looks);
        for (letter, met) in LETTERS.iter().zip(self.letters) {
            println!("| reply {} | {met} |", char::from(*letter));
        }
        for number in REFUSALS {
            println!("| refusal {number} | {} |", self.refusals[number]);
        }
    }
}
