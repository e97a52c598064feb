//! Why a call failed.
use std::{error, fmt};

/// The classes of refusals.
#[derive(Clone, Copy, Debug, PartialEq, Eq)]
pub enum Class {
    /// The statement is wrong: its text, its names or its kinds.
    Statement,
    /// A value is out of its range.
    Value,
    /// A row violates a constraint.
    Constraint,
    /// The state does not allow it: memory, transactions, moments, readers.
    State,
}

/// A refused statement. It has changed nothing.
#[derive(Clone, Debug, PartialEq, Eq)]
pub struct Refusal {
    /// The number behind the E.
    pub number: u32,
    /// The text, as "duplicate key".
    pub text: String,
    /// What is wrong.
    pub detail: Option<String>,
    /// What to write instead.
    pub hint: Option<String>,
    /// The constraint that a row violates, and its columns.
    pub constraint: Option<String>,
    pub columns: Vec<String>,
    /// The row of an INSERT, from 1.
    pub row: Option<u64>,
    /// The line, from 1, and the character of it.
    pub line: u64,
    pub column: Option<u64>,
}

/// Why a call failed.
#[derive(Clone, Debug, PartialEq, Eq)]
pub enum Error {
    /// The engine refused the statement.
    Refused(Box<Refusal>),
    /// There is no memory for an engine or a session.
    NoMemory,
    /// Another thread is inside a call on the engine.
    Busy,
    /// The statement has another number of parameters than values were passed.
    Parameters { wanted: usize, passed: usize },
    /// A day or a moment that was passed is outside of the years 1 to 9999.
    Range,
}

impl Refusal {
    /// The class of the refusal.
    pub fn class(&self) -> Class {
        match self.number {
            30 | 31 => Class::Value,
            32..=36 => Class::Constraint,
            1 | 15 | 16 | 40 | 41 | 45 | 46 | 47 => Class::State,
            _ => Class::Statement,
        }
    }
}

impl Error {
    /// The refusal, if the engine refused the statement.
    pub fn refusal(&self) -> Option<&Refusal> {
        match self {
            Error::Refused(refusal) => Some(refusal),
            _ => None,
        }
    }
}

impl fmt::Display for Refusal {
    fn fmt(&self, f: &mut fmt::Formatter<'_>) -> fmt::Result {
        write!(f, "E{:02} {}", self.number, self.text)?;
        if let Some(detail) = &self.detail {
            write!(f, ": {detail}")?;
        }
        match &self.hint {
            Some(hint) => write!(f, "; {hint}"),
            None => Ok(()),
        }
    }
}

impl fmt::Display for Error {
    fn fmt(&self, f: &mut fmt::Formatter<'_>) -> fmt::Result {
        match self {
            Error::Refused(refusal) => refusal.fmt(f),
            Error::NoMemory => f.write_str("out of memory"),
            Error::Busy => f.write_str("another thread is inside a call on the engine"),
            Error::Parameters { wanted, passed } => {
                write!(f, "the statement has {wanted} parameters, and {passed} values were passed")
            }
            Error::Range => f.write_str("a day or a moment is outside of the years 1 to 9999"),
        }
    }
}

impl error::Error for Error {}
