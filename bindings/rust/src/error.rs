//! Why there is no session, or no answer.

use std::error::Error;
use std::fmt;

use crate::frame::Frame;
use crate::lines::Unread;
use crate::session::Session;
use crate::stop::Stop;

/// Out of memory.
#[derive(Clone, Copy, Debug, PartialEq, Eq)]
pub struct OutOfMemory(pub(crate) ());

impl fmt::Display for OutOfMemory {
    fn fmt(&self, f: &mut fmt::Formatter<'_>) -> fmt::Result {
        f.write_str("out of memory")
    }
}

impl Error for OutOfMemory {}

/// Why there is no session over a list of ids.
#[derive(Clone, Copy, Debug, PartialEq, Eq)]
#[non_exhaustive]
pub enum OpenError {
    /// There are no ids, or too many.
    Ids {
        /// How many there are.
        count: usize,
    },
    /// Out of memory.
    NoMemory,
}

impl fmt::Display for OpenError {
    fn fmt(&self, f: &mut fmt::Formatter<'_>) -> fmt::Result {
        match self {
            OpenError::Ids { count } => {
                write!(f, "a list has 1 to {} ids, not {count}", Session::MAX_IDS)
            }
            OpenError::NoMemory => OutOfMemory(()).fmt(f),
        }
    }
}

impl Error for OpenError {}

/// Why a step has no answer.
#[derive(Clone, Debug, PartialEq, Eq)]
#[non_exhaustive]
pub enum StepError {
    /// The step stopped the session.
    Stopped {
        /// Why.
        stop: Stop,
        /// The frames of the step that were handed before.
        handed: Vec<Frame>,
    },
    /// The session had stopped before.
    StoppedBefore,
    /// Out of memory. The session is as it was.
    NoMemory,
    /// 2^64 - 1 control links were opened, and no more can be numbered.
    NoLinkLeft,
    /// The step was made, but what it answered couldn't be read;
    /// [`Session::answer`] and [`Session::stop`] read it again.
    Report(ReportError),
}

impl From<ReportError> for StepError {
    fn from(error: ReportError) -> Self {
        StepError::Report(error)
    }
}

impl fmt::Display for StepError {
    fn fmt(&self, f: &mut fmt::Formatter<'_>) -> fmt::Result {
        match self {
            StepError::Stopped { stop, handed } => {
                write!(f, "the session stopped: {stop}, {} handed", handed.len())
            }
            StepError::StoppedBefore => f.write_str("the session had stopped before"),
            StepError::NoMemory => OutOfMemory(()).fmt(f),
            StepError::NoLinkLeft => f.write_str("no more control links can be numbered"),
            StepError::Report(_) => f.write_str("the answer couldn't be read"),
        }
    }
}

impl Error for StepError {
    fn source(&self) -> Option<&(dyn Error + 'static)> {
        match self {
            StepError::Report(error) => Some(error),
            _ => None,
        }
    }
}

/// Why an answer, or the work of a transaction, can't be read.
#[derive(Clone, Copy, Debug, PartialEq, Eq)]
#[non_exhaustive]
pub enum ReportError {
    /// Out of memory. It may be read again.
    NoMemory,
    /// There is no such answer.
    Unread(Unread),
}

impl From<Unread> for ReportError {
    fn from(error: Unread) -> Self {
        ReportError::Unread(error)
    }
}

impl fmt::Display for ReportError {
    fn fmt(&self, f: &mut fmt::Formatter<'_>) -> fmt::Result {
        match self {
            ReportError::NoMemory => OutOfMemory(()).fmt(f),
            ReportError::Unread(error) => error.fmt(f),
        }
    }
}

impl Error for ReportError {}
