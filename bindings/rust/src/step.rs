//! What a session is asked to do.

use std::fmt;
use std::str::FromStr;

use crate::delivery::{Outcome, TransactionalState};
use crate::frame::{Attach, Detach, Disposition, Transfer};
use crate::lines::{put, put_number, put_outcome, put_payload, show, Unread, Words};
use crate::link::{ControlLink, Handle, LinkName};

/// The state of a disposition of the peer: an outcome, or one under a transaction.
#[derive(Clone, Copy, Debug, PartialEq, Eq, Hash)]
pub enum DispositionState {
    /// An outcome, at once.
    Outcome(Outcome),
    /// An outcome that the deliveries have if the transaction commits (*transactional retirement*).
    Transactional(TransactionalState),
}

impl From<Outcome> for DispositionState {
    fn from(outcome: Outcome) -> Self {
        DispositionState::Outcome(outcome)
    }
}

impl From<TransactionalState> for DispositionState {
    fn from(state: TransactionalState) -> Self {
        DispositionState::Transactional(state)
    }
}

/// One step of a session: a frame of the peer, a message on a control link, or an end.
///
/// Each has a line, which the proved core reads:
///
/// ```
/// use daxurbi::{Handle, Step, TransactionalState, Transfer};
///
/// let post = Step::Transfer(Transfer {
///     handle: Handle(1),
///     delivery_id: Some(7),
///     settled: None,
///     state: Some(TransactionalState::under("cafe".parse()?)),
///     payload: b"hi".to_vec(),
/// });
/// assert_eq!(post.to_string(), "post cafe 1 7 - - 6869");
/// assert_eq!("post cafe 1 7 - - 6869".parse(), Ok(post));
/// # Ok::<(), daxurbi::Unread>(())
/// ```
#[derive(Clone, Debug, PartialEq, Eq, Hash)]
#[non_exhaustive]
pub enum Step {
    /// An attach, with role sender, whose target is a coordinator: it opens a control link.
    AttachCoordinator {
        /// The name of the link.
        name: LinkName,
        /// Its handle.
        handle: Handle,
    },
    /// An attach whose target is a plain one.
    Attach(Attach),
    /// A flow for a link.
    LinkFlow {
        /// The link.
        handle: Handle,
        /// Its credit.
        link_credit: u32,
    },
    /// A flow of the session alone.
    SessionFlow,
    /// A transfer: plain, or under a transaction (*transactional posting*).
    Transfer(Transfer<TransactionalState>),
    /// A disposition: plain, or under a transaction (*transactional retirement*).
    Disposition(Disposition<DispositionState>),
    /// The detach of a link that isn't a control link.
    Detach(Detach),
    /// A message on a control link: a declare, a discharge, or neither.
    Control {
        /// The link.
        link: ControlLink,
        /// The octets of the message, as they came.
        payload: Vec<u8>,
    },
    /// The end of a control link, by a detach of the peer or because its connection is lost.
    LinkEnd {
        /// The link.
        link: ControlLink,
    },
    /// The session is ended by this side.
    End,
    /// The session is ended by the peer.
    RemoteEnd,
    /// The connection stopped.
    ConnectionStop,
}

impl Step {
    pub(crate) fn put(&self, line: &mut Vec<u8>) {
        match self {
            Step::AttachCoordinator { name, handle } => {
                put(line, "attach ");
                put(line, name.as_str());
                put(line, " ");
                put_number(line, handle.0.into());
            }
            Step::Attach(attach) => {
                put(line, "link ");
                attach.put(line);
            }
            Step::LinkFlow {
                handle,
                link_credit,
            } => {
                put(line, "flow ");
                put_number(line, handle.0.into());
                put(line, " ");
                put_number(line, (*link_credit).into());
            }
            Step::SessionFlow => put(line, "flow -"),
            Step::Transfer(transfer) => put_transfer(line, transfer),
            Step::Disposition(disposition) => put_disposition(line, disposition),
            Step::Detach(detach) => {
                put(line, "detach ");
                detach.put(line);
            }
            Step::Control { link, payload } => {
                put(line, "control ");
                put_number(line, link.0);
                put_payload(line, payload);
            }
            Step::LinkEnd { link } => {
                put(line, "link-end ");
                put_number(line, link.0);
            }
            Step::End => put(line, "end"),
            Step::RemoteEnd => put(line, "remote-end"),
            Step::ConnectionStop => put(line, "connection-stop"),
        }
    }
}

/// `transfer H ID SET PAYLOAD`, or `post T H ID SET OUT PAYLOAD`.
fn put_transfer(line: &mut Vec<u8>, transfer: &Transfer<TransactionalState>) {
    match transfer.state {
        None => {
            put(line, "transfer ");
            transfer.put_delivery(line);
        }
        Some(TransactionalState { txn_id, outcome }) => {
            put(line, "post ");
            txn_id.put(line);
            put(line, " ");
            transfer.put_delivery(line);
            put_outcome(line, outcome);
        }
    }
    put_payload(line, &transfer.payload);
}

/// `disposition ROLE FIRST LAST BOOL OUT`, or `retire T ROLE FIRST LAST BOOL OUT`.
fn put_disposition(line: &mut Vec<u8>, disposition: &Disposition<DispositionState>) {
    let outcome = match disposition.state {
        None => {
            put(line, "disposition ");
            None
        }
        Some(DispositionState::Outcome(outcome)) => {
            put(line, "disposition ");
            Some(outcome)
        }
        Some(DispositionState::Transactional(TransactionalState { txn_id, outcome })) => {
            put(line, "retire ");
            txn_id.put(line);
            put(line, " ");
            outcome
        }
    };
    disposition.put_deliveries(line);
    put_outcome(line, outcome);
}

impl fmt::Display for Step {
    fn fmt(&self, f: &mut fmt::Formatter<'_>) -> fmt::Result {
        show(f, |line| self.put(line))
    }
}

impl FromStr for Step {
    type Err = Unread;

    fn from_str(text: &str) -> Result<Self, Unread> {
        Words::read_all(text, Words::step)
    }
}
