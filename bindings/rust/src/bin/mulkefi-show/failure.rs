//! Why nothing was shown, and the status that tells so.

use mulkefi::{Fault, Refusal};
use std::io;

/// A reason why nothing was shown.
pub enum Failure {
    /// The engine refuses the bytes, and this is where.
    Refused(Fault),
    /// The call is wrong, there is nothing to read or to show, or the output can't be written.
    Wrong(String),
    /// The engine and the reader of this crate answer differently.
    Apart { engine: Option<Refusal>, reader: Option<Refusal> },
}

impl Failure {
    /// Of a call that can't be understood.
    pub fn of_call(sentence: String) -> Failure {
        Failure::Wrong(format!("{sentence} (mulkefi-show --help lists the options)"))
    }

    /// Of output that can't be written.
    pub fn of_writing(error: io::Error) -> Failure {
        Failure::Wrong(format!("cannot write to standard output: {error}"))
    }

    /// The refusal where engine and reader agree on one, and otherwise that they do not.
    pub fn of_bytes(engine: Option<Refusal>, reader: Option<Fault>) -> Failure {
        match reader {
            Some(fault) if engine == Some(fault.refusal) => Failure::Refused(fault),
            fault => Failure::Apart { engine, reader: fault.map(|fault| fault.refusal) },
        }
    }

    /// The process's status.
    pub fn status(&self) -> u8 {
        match self {
            Failure::Refused(_) => 1,
            Failure::Wrong(_) => 2,
            Failure::Apart { .. } => 3,
        }
    }

    /// What goes to standard error.
    pub fn text(&self) -> String {
        match self {
            Failure::Refused(fault) => format!("refused by {}\n{fault}\n", fault.refusal),
            Failure::Wrong(sentence) => format!("mulkefi-show: {sentence}\n"),
            Failure::Apart { engine, reader } => {
                let [engine, reader] = [engine, reader].map(|refusal| match refusal {
                    Some(refusal) => format!("refuses by {}", refusal.number()),
                    None => "accepts".to_string(),
                });
                format!("mulkefi-show: the engine {engine} what the reader {reader}\n")
            }
        }
    }
}
