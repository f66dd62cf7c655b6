//! What a session answers to a step.

use std::fmt;

use crate::frame::Frame;
use crate::id::TransactionId;
use crate::lines::{put, put_number, show};
use crate::link::ControlLink;
use crate::stop::Refusal;

/// Why a declare or a discharge is rejected. Part 4 of the standard, section 4.5.8.
#[derive(Clone, Copy, Debug, PartialEq, Eq, Hash)]
#[non_exhaustive]
pub enum TransactionError {
    /// The id of a discharge isn't live or was declared on another link; or a declare couldn't be
    /// given an id.
    UnknownId(RejectText),
    /// The layer below vetoed the commit, and the transaction was rolled back.
    Rollback,
}

/// What is told beside [`TransactionError::UnknownId`].
#[derive(Clone, Copy, Debug, PartialEq, Eq, Hash)]
#[non_exhaustive]
pub enum RejectText {
    /// Nothing: a discharge's id isn't live, or was declared on another link.
    Absent,
    /// The declare has a global id, which isn't supported.
    GlobalId,
    /// Each id that was drawn for the declare is live.
    IdsRepeat,
}

impl TransactionError {
    /// The symbol of the condition, as an AMQP error has it.
    pub fn condition(self) -> &'static str {
        match self {
            TransactionError::UnknownId(_) => "amqp:transaction:unknown-id",
            TransactionError::Rollback => "amqp:transaction:rollback",
        }
    }

    /// The text for people that an AMQP error may have beside the condition.
    pub fn description(self) -> Option<&'static str> {
        match self {
            TransactionError::UnknownId(RejectText::GlobalId) => {
                Some("Global transaction ID is not implemented")
            }
            TransactionError::UnknownId(RejectText::IdsRepeat) => {
                Some("No unused transaction ID was drawn")
            }
            TransactionError::UnknownId(RejectText::Absent) | TransactionError::Rollback => None,
        }
    }

    fn words(self) -> &'static str {
        match self {
            TransactionError::UnknownId(RejectText::Absent) => "unknown-id",
            TransactionError::UnknownId(RejectText::GlobalId) => "unknown-id global-id",
            TransactionError::UnknownId(RejectText::IdsRepeat) => "unknown-id ids-repeat",
            TransactionError::Rollback => "rollback",
        }
    }
}

impl fmt::Display for TransactionError {
    fn fmt(&self, f: &mut fmt::Formatter<'_>) -> fmt::Result {
        f.write_str(self.words())
    }
}

impl std::error::Error for TransactionError {}

/// The reply to a step. Part 4 of the standard, sections 4.2 to 4.4.
#[derive(Clone, Copy, Debug, PartialEq, Eq, Hash)]
#[non_exhaustive]
pub enum Reply {
    /// To a frame: a plain one was handed, or one under a live transaction is held.
    Ok,
    /// The control link was opened, with this number.
    Attached(ControlLink),
    /// The layer below refused the attach of a control link; none was opened.
    AttachRefused(Refusal),
    /// The control link ended, and what was declared on it was rolled back.
    LinkEnded,
    /// The control link isn't open.
    NoLink,
    /// The payload was no control message: the link is closed with `amqp:not-allowed`, as if it
    /// had ended.
    LinkClosed,
    /// To a declare: the id of the new transaction.
    Declared(TransactionId),
    /// To a discharge: the transaction is committed or rolled back, as was asked.
    Accepted,
    /// To a declare or a discharge: it is rejected.
    Rejected(TransactionError),
}

impl Reply {
    fn put(&self, line: &mut Vec<u8>) {
        match self {
            Reply::Ok => put(line, "ok"),
            Reply::Attached(link) => {
                put(line, "attached ");
                put_number(line, link.0);
            }
            Reply::AttachRefused(refusal) => {
                put(line, "attach-refused ");
                put(line, refusal.word());
            }
            Reply::LinkEnded => put(line, "link-ended"),
            Reply::NoLink => put(line, "no-link"),
            Reply::LinkClosed => put(line, "link-closed not-allowed"),
            Reply::Declared(txn_id) => {
                put(line, "declared ");
                txn_id.put(line);
            }
            Reply::Accepted => put(line, "accepted"),
            Reply::Rejected(error) => {
                put(line, "rejected ");
                put(line, error.words());
            }
        }
    }
}

impl fmt::Display for Reply {
    fn fmt(&self, f: &mut fmt::Formatter<'_>) -> fmt::Result {
        show(f, |line| self.put(line))
    }
}

/// The answer to a step.
#[derive(Clone, Debug, PartialEq, Eq)]
#[non_exhaustive]
pub struct Answer {
    /// The reply.
    pub reply: Reply,
    /// The frames to be sent to the peer, in order.
    pub sent_back: Vec<Frame>,
    /// The frames that were handed to the layer below, in order.
    pub handed: Vec<Frame>,
}
