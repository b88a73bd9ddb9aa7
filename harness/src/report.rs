//! How a program ends.

use std::error::Error;
use std::process::ExitCode;

/// The status of a program: success for `Ok(true)` alone. An error is printed.
pub fn status(ended: Result<bool, Box<dyn Error>>) -> ExitCode {
    match ended {
        Ok(true) => ExitCode::SUCCESS,
        Ok(false) => ExitCode::FAILURE,
        Err(error) => {
            eprintln!("{error}");
            ExitCode::FAILURE
        }
    }
}
