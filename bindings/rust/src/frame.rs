//! Frames, with the fields that a session shows. Part 2 of the standard, section 2.7.

use std::fmt;
use std::str::FromStr;

use crate::delivery::DeliveryState;
use crate::lines::{put, put_bool, put_number, put_optional, put_payload, put_settled};
use crate::lines::{show, Unread, Words};
use crate::link::{Handle, LinkName, Role};

/// The attach of a link. Section 2.7.3.
#[derive(Clone, Debug, PartialEq, Eq, Hash)]
pub struct Attach {
    /// The name of the link.
    pub name: LinkName,
    /// Its handle.
    pub handle: Handle,
    /// The role of the end that attaches.
    pub role: Role,
}

/// A flow: of a link, or of the session alone. Section 2.7.4.
#[derive(Clone, Copy, Debug, PartialEq, Eq, Hash)]
pub struct Flow {
    /// The link, unless the flow is the session's alone.
    pub handle: Option<Handle>,
    /// The link's credit.
    pub link_credit: Option<u32>,
}

/// A transfer, which is one whole delivery, with a state of type `S`. Section 2.7.5.
#[derive(Clone, Debug, PartialEq, Eq, Hash)]
pub struct Transfer<S = DeliveryState> {
    /// The link.
    pub handle: Handle,
    /// The number of the delivery.
    pub delivery_id: Option<u32>,
    /// Whether the sender settled it.
    pub settled: Option<bool>,
    /// The state of the delivery at its sender.
    pub state: Option<S>,
    /// The octets of the message.
    pub payload: Vec<u8>,
}

/// A disposition, with a state of type `S`. Section 2.7.6.
#[derive(Clone, Copy, Debug, PartialEq, Eq, Hash)]
pub struct Disposition<S = DeliveryState> {
    /// The role of the end that sends the disposition.
    pub role: Role,
    /// The number of the first delivery.
    pub first: u32,
    /// The number of the last one; without it the first is the only one.
    pub last: Option<u32>,
    /// Whether they are settled.
    pub settled: bool,
    /// Their state.
    pub state: Option<S>,
}

/// The detach of a link. Section 2.7.7.
#[derive(Clone, Copy, Debug, PartialEq, Eq, Hash)]
pub struct Detach {
    /// The link's handle.
    pub handle: Handle,
    /// Whether the link is closed, and not only detached.
    pub closed: bool,
}

/// A frame that a session hands to the layer below, or that is to be sent to the peer.
///
/// Its text is that of a report:
///
/// ```
/// use daxurbi::{Frame, Handle, Outcome, Transfer};
///
/// let frame = Frame::Transfer(Transfer {
///     handle: Handle(1),
///     delivery_id: Some(7),
///     settled: Some(true),
///     state: Some(Outcome::Accepted.into()),
///     payload: b"hi".to_vec(),
/// });
/// assert_eq!(frame.to_string(), "transfer 1 7 true accepted 6869");
/// assert_eq!("transfer 1 7 true accepted 6869".parse(), Ok(frame));
/// ```
#[derive(Clone, Debug, PartialEq, Eq, Hash)]
#[non_exhaustive]
pub enum Frame {
    /// The attach of a link.
    Attach(Attach),
    /// A flow.
    Flow(Flow),
    /// A transfer.
    Transfer(Transfer),
    /// A disposition.
    Disposition(Disposition),
    /// The detach of a link.
    Detach(Detach),
}

impl Attach {
    pub(crate) fn put(&self, line: &mut Vec<u8>) {
        put(line, self.name.as_str());
        put(line, " ");
        put_number(line, self.handle.0.into());
        put(line, " ");
        put(line, self.role.word());
    }
}

impl<S> Transfer<S> {
    pub(crate) fn put_delivery(&self, line: &mut Vec<u8>) {
        put_number(line, self.handle.0.into());
        put_optional(line, self.delivery_id);
        put_settled(line, self.settled);
    }
}

impl<S> Disposition<S> {
    pub(crate) fn put_deliveries(&self, line: &mut Vec<u8>) {
        put(line, self.role.word());
        put(line, " ");
        put_number(line, self.first.into());
        put_optional(line, self.last);
        put_bool(line, self.settled);
    }
}

impl Detach {
    pub(crate) fn put(&self, line: &mut Vec<u8>) {
        put_number(line, self.handle.0.into());
        put_bool(line, self.closed);
    }
}

impl Frame {
    fn put(&self, line: &mut Vec<u8>) {
        match self {
            Frame::Attach(attach) => {
                put(line, "attach ");
                attach.put(line);
            }
            Frame::Flow(flow) => {
                put(line, "flow");
                put_optional(line, flow.handle.map(|handle| handle.0));
                put_optional(line, flow.link_credit);
            }
            Frame::Transfer(transfer) => {
                put(line, "transfer ");
                transfer.put_delivery(line);
                put_state(line, transfer.state.as_ref());
                put_payload(line, &transfer.payload);
            }
            Frame::Disposition(disposition) => {
                put(line, "disposition ");
                disposition.put_deliveries(line);
                put_state(line, disposition.state.as_ref());
            }
            Frame::Detach(detach) => {
                put(line, "detach ");
                detach.put(line);
            }
        }
    }
}

fn put_state(line: &mut Vec<u8>, state: Option<&DeliveryState>) {
    put(line, " ");
    match state {
        None => put(line, "-"),
        Some(state) => state.put(line),
    }
}

impl fmt::Display for Frame {
    fn fmt(&self, f: &mut fmt::Formatter<'_>) -> fmt::Result {
        show(f, |line| self.put(line))
    }
}

impl FromStr for Frame {
    type Err = Unread;

    fn from_str(text: &str) -> Result<Self, Unread> {
        Words::read_all(text, Words::frame)
    }
}
