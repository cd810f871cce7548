//! The command lines of the programs: options that take a value, options that
//! do not, and messages that name what is wrong.

use std::io::Write;
use std::process::ExitCode;

/// The options of a command line, read from left to right.
pub struct Options(std::vec::IntoIter<String>);

impl Options {
    /// The options this process was started with.
    pub fn of_process() -> Result<Self, String> {
        let read = |word: std::ffi::OsString| {
            word.into_string()
                .map_err(|word| format!("an option is not UTF-8: {word:?}"))
        };
        let words: Result<Vec<String>, String> = std::env::args_os().skip(1).map(read).collect();
        Ok(Options(words?.into_iter()))
    }

    /// The next option.
    pub fn next_option(&mut self) -> Option<String> {
        self.0.next()
    }

    /// The value of an option.
    pub fn value(&mut self, option: &str) -> Result<String, String> {
        self.0
            .next()
            .ok_or_else(|| format!("{option} needs a value"))
    }

    /// The value of an option, as a number.
    pub fn number(&mut self, option: &str) -> Result<u64, String> {
        let value = self.value(option)?;
        let wrong = |_| format!("{option} needs a number below 2^64, not {value:?}");
        value.parse().map_err(wrong)
    }
}

/// The message for an option that a program does not have.
pub fn unknown(option: &str) -> String {
    format!("unknown option {option:?}; --help tells the options")
}

/// Prints a line on standard error, or nothing if that is closed.
pub fn note(message: &str) {
    let _ = writeln!(std::io::stderr(), "{message}");
}

/// Ends a program: status 0, or a message and status 1.
pub fn end(program: &str, outcome: Result<(), String>) -> ExitCode {
    match outcome {
        Ok(()) => ExitCode::SUCCESS,
        Err(message) => {
            note(&format!("{program}: {message}"));
            ExitCode::FAILURE
        }
    }
}
