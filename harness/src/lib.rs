//! What the tests and measurements of the console's library share.

pub mod hex;
pub mod options;
pub mod ours;
pub mod random;
pub mod report;
pub mod stack;
pub mod task;
pub mod told;
