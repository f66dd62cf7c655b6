//! The states of deliveries.

use std::fmt;

use crate::id::TransactionId;
use crate::lines::{put, show};

/// An outcome: a state in which a delivery ends. Part 3 of the standard, section 3.4.
#[derive(Clone, Copy, Debug, PartialEq, Eq, Hash)]
pub enum Outcome {
    /// The message was processed.
    Accepted,
    /// The message is invalid.
    Rejected,
    /// The message wasn't processed, and may be delivered anew.
    Released,
    /// The message was changed, and may be delivered anew.
    Modified,
}

impl Outcome {
    pub(crate) fn word(self) -> &'static str {
        match self {
            Outcome::Accepted => "accepted",
            Outcome::Rejected => "rejected",
            Outcome::Released => "released",
            Outcome::Modified => "modified",
        }
    }
}

impl fmt::Display for Outcome {
    fn fmt(&self, f: &mut fmt::Formatter<'_>) -> fmt::Result {
        f.write_str(self.word())
    }
}

/// The state of a delivery under a transaction. Part 4 of the standard, section 4.5.7.
#[derive(Clone, Copy, Debug, PartialEq, Eq, Hash)]
pub struct TransactionalState {
    /// The transaction.
    pub txn_id: TransactionId,
    /// The outcome that the delivery has if the transaction commits; none where the receiver is to
    /// choose.
    pub outcome: Option<Outcome>,
}

impl TransactionalState {
    /// The state under this transaction, without an outcome.
    pub fn under(txn_id: TransactionId) -> Self {
        TransactionalState {
            txn_id,
            outcome: None,
        }
    }
}

/// The state of a delivery: an outcome, or one that isn't the last. Part 3 of the standard,
/// section 3.4, and part 4, sections 4.5.5 and 4.5.7.
#[derive(Clone, Copy, Debug, PartialEq, Eq, Hash)]
#[non_exhaustive]
pub enum DeliveryState {
    /// A part of the message was received.
    Received,
    /// An outcome.
    Outcome(Outcome),
    /// The answer to a declare: the id of the new transaction.
    Declared(TransactionId),
    /// A state under a transaction.
    Transactional(TransactionalState),
}

impl DeliveryState {
    pub(crate) fn put(&self, line: &mut Vec<u8>) {
        match self {
            DeliveryState::Received => put(line, "received"),
            DeliveryState::Outcome(outcome) => put(line, outcome.word()),
            DeliveryState::Declared(txn_id) => {
                put(line, "declared:");
                txn_id.put(line);
            }
            DeliveryState::Transactional(TransactionalState { txn_id, outcome }) => {
                put(line, "txn:");
                txn_id.put(line);
                put(line, ":");
                put(line, outcome.map_or("-", Outcome::word));
            }
        }
    }
}

impl From<Outcome> for DeliveryState {
    fn from(outcome: Outcome) -> Self {
        DeliveryState::Outcome(outcome)
    }
}

impl From<TransactionalState> for DeliveryState {
    fn from(state: TransactionalState) -> Self {
        DeliveryState::Transactional(state)
    }
}

impl fmt::Display for DeliveryState {
    fn fmt(&self, f: &mut fmt::Formatter<'_>) -> fmt::Result {
        show(f, |line| self.put(line))
    }
}
