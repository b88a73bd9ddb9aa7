//! The console of the linked library, through its C functions.

use std::fmt;
use std::mem::{align_of, size_of_val};
use std::ptr;

const DONE: u8 = 0;
const NO_ROOM: u8 = 22;

/// What the memory of a console is made of.
type Word = u64;

/// What came of one call: where the next command is, and how many bytes were told.
#[repr(C)]
#[derive(Clone, Copy, Debug, Default, PartialEq, Eq)]
pub struct Ran {
    pub next: usize,
    pub count: usize,
}

unsafe extern "C" {
    safe fn console_size() -> usize;
    safe fn console_alignment() -> usize;
    fn console_new(console: *mut Word);
    fn console_run(
        console: *mut Word,
        tape: *const u8,
        tape_length: usize,
        place: usize,
        reply: *mut u8,
        reply_length: usize,
        ran: *mut Ran,
    ) -> u8;
    fn console_replies(
        tape: *const u8,
        tape_length: usize,
        room: *mut u8,
        room_length: usize,
        needed: *mut usize,
    ) -> u8;
}

/// An answer of the library that no contract allows.
#[derive(Clone, Copy, Debug, PartialEq, Eq)]
pub struct Unexpected(u8);

impl fmt::Display for Unexpected {
    fn fmt(&self, f: &mut fmt::Formatter<'_>) -> fmt::Result {
        write!(f, "the library has answered {}", self.0)
    }
}

impl std::error::Error for Unexpected {}

/// Whether replies fit into a room, and how many bytes there are.
#[derive(Clone, Copy, Debug, PartialEq, Eq)]
pub enum Fit {
    Written(usize),
    NoRoom(usize),
}

/// The address of some bytes, or null where there are none.
fn address(bytes: &[u8]) -> *const u8 {
    if bytes.is_empty() {
        ptr::null()
    } else {
        bytes.as_ptr()
    }
}

/// The address of a room, or null where it is empty.
fn room_address(room: &mut [u8]) -> *mut u8 {
    if room.is_empty() {
        ptr::null_mut()
    } else {
        room.as_mut_ptr()
    }
}

/// Writes all replies to a tape, by a new console, into a room as far as they fit.
pub fn replies_into(tape: &[u8], room: &mut [u8]) -> Result<Fit, Unexpected> {
    let mut needed = usize::MAX;
    // SAFETY: the addresses and lengths are those of slices and a variable, which live until the
    // call returns and do not overlap.
    let answer = unsafe {
        console_replies(
            address(tape),
            tape.len(),
            room_address(room),
            room.len(),
            &mut needed,
        )
    };
    match answer {
        DONE => Ok(Fit::Written(needed)),
        NO_ROOM => Ok(Fit::NoRoom(needed)),
        _ => Err(Unexpected(answer)),
    }
}

/// All replies to a tape, by a new console.
pub fn replies(tape: &[u8]) -> Result<Vec<u8>, Unexpected> {
    let mut room = vec![0; 4_096];
    loop {
        match replies_into(tape, &mut room)? {
            Fit::Written(count) => {
                room.truncate(count);
                return Ok(room);
            }
            Fit::NoRoom(needed) => room.resize(needed, 0),
        }
    }
}

/// A console that is kept between calls, in memory of ours. Its clone is a copy of the bytes.
#[derive(Clone)]
pub struct Console {
    memory: Box<[Word]>,
}

impl Console {
    /// A console without a task.
    #[allow(clippy::new_without_default)]
    pub fn new() -> Self {
        let words = console_size().div_ceil(size_of::<Word>());
        let mut memory = vec![Word::MAX; words].into_boxed_slice();
        assert!(size_of_val(&*memory) >= console_size());
        assert!(align_of::<Word>() >= console_alignment());
        // SAFETY: the memory has the size and the alignment of a console, and lives until the call
        // returns.
        unsafe { console_new(memory.as_mut_ptr()) };
        Console { memory }
    }

    /// Runs the command at a place of the tape. An error is the number of the refusal of the call.
    pub fn run(&mut self, tape: &[u8], place: usize, reply: &mut [u8]) -> Result<Ran, u8> {
        let mut ran = Ran::default();
        // SAFETY: the memory holds a console that was made by the library, or a copy of one; the
        // addresses and lengths are those of slices and a variable, which live until the call
        // returns and do not overlap.
        let answer = unsafe {
            console_run(
                self.memory.as_mut_ptr(),
                address(tape),
                tape.len(),
                place,
                room_address(reply),
                reply.len(),
                &mut ran,
            )
        };
        if answer == DONE { Ok(ran) } else { Err(answer) }
    }
}
