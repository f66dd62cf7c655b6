//! Why a layer below refuses, and why a session stops.

use std::fmt;

/// Why the layer below refuses a frame.
#[derive(Clone, Copy, Debug, PartialEq, Eq, Hash)]
#[non_exhaustive]
pub enum Refusal {
    /// The frame's handle isn't attached.
    UnattachedHandle,
    /// No link of that name is known.
    LinkNameNotFound,
    /// The handle of an attach is in use.
    HandleInUse,
    /// The state of the layer doesn't allow the frame.
    IllegalState,
    /// A transfer came on a link that this side sends on.
    TransferToSender,
    /// The layer's connection stopped.
    ConnectionStopped,
    /// The peer ended the layer's session.
    RemoteEnded,
    /// The layer ran out of memory.
    NoMemory,
}

impl Refusal {
    pub(crate) const ALL: [Refusal; 8] = [
        Refusal::UnattachedHandle,
        Refusal::LinkNameNotFound,
        Refusal::HandleInUse,
        Refusal::IllegalState,
        Refusal::TransferToSender,
        Refusal::ConnectionStopped,
        Refusal::RemoteEnded,
        Refusal::NoMemory,
    ];

    pub(crate) fn word(self) -> &'static str {
        match self {
            Refusal::UnattachedHandle => "unattached-handle",
            Refusal::LinkNameNotFound => "link-name-not-found",
            Refusal::HandleInUse => "handle-in-use",
            Refusal::IllegalState => "illegal-state",
            Refusal::TransferToSender => "transfer-to-sender",
            Refusal::ConnectionStopped => "below-connection-stopped",
            Refusal::RemoteEnded => "below-remote-ended",
            Refusal::NoMemory => "below-no-memory",
        }
    }
}

impl fmt::Display for Refusal {
    fn fmt(&self, f: &mut fmt::Formatter<'_>) -> fmt::Result {
        f.write_str(self.word())
    }
}

impl std::error::Error for Refusal {}

/// Why a session stopped. It takes no step any more.
#[derive(Clone, Copy, Debug, PartialEq, Eq, Hash)]
#[non_exhaustive]
pub enum Stop {
    /// A frame was under an id that isn't live.
    UnknownTxnId,
    /// The layer below refused a frame.
    Refused(Refusal),
    /// The session was ended by this side.
    Ended,
    /// The session was ended by the peer.
    RemoteEnded,
    /// The connection stopped.
    ConnectionStopped,
}

impl Stop {
    /// The stops that aren't refusals.
    pub(crate) const UNREFUSED: [Stop; 4] = [
        Stop::UnknownTxnId,
        Stop::Ended,
        Stop::RemoteEnded,
        Stop::ConnectionStopped,
    ];

    pub(crate) fn word(self) -> &'static str {
        match self {
            Stop::UnknownTxnId => "unknown-txn-id",
            Stop::Refused(refusal) => refusal.word(),
            Stop::Ended => "ended",
            Stop::RemoteEnded => "remote-ended",
            Stop::ConnectionStopped => "connection-stopped",
        }
    }
}

impl From<Refusal> for Stop {
    fn from(refusal: Refusal) -> Self {
        Stop::Refused(refusal)
    }
}

impl fmt::Display for Stop {
    fn fmt(&self, f: &mut fmt::Formatter<'_>) -> fmt::Result {
        f.write_str(self.word())
    }
}
