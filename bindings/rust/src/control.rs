//! Control messages: what a control link carries. Part 4 of the standard, section 4.5.

use crate::ffi::{self, answers, kinds};
use crate::id::{GlobalId, TransactionId};

/// A message on a control link.
///
/// ```
/// use daxurbi::ControlMessage;
///
/// let declare = ControlMessage::Declare { global_id: None };
/// assert_eq!(declare.to_payload(), [0x00, 0x53, 0x77, 0x00, 0x53, 0x31, 0x45]);
/// assert_eq!(ControlMessage::from_payload(&declare.to_payload()), Some(declare));
/// assert_eq!(ControlMessage::from_payload(b"hi"), None);
/// ```
#[derive(Clone, Copy, Debug, PartialEq, Eq, Hash)]
pub enum ControlMessage {
    /// Begins a transaction. Section 4.5.2.
    Declare {
        /// The distributed transaction that it is to be a part of; a session supports none.
        global_id: Option<GlobalId>,
    },
    /// Ends a transaction. Section 4.5.3.
    Discharge {
        /// The transaction; none where the message has an empty id, which no transaction is given.
        txn_id: Option<TransactionId>,
        /// Whether it is to be rolled back; none and false commit.
        fail: Option<bool>,
    },
}

impl ControlMessage {
    /// The most octets of a payload that [`to_payload`](Self::to_payload) makes.
    const MAX_LEN: usize = 44;

    /// The discharge that commits a transaction.
    pub fn commit(txn_id: TransactionId) -> Self {
        ControlMessage::Discharge {
            txn_id: Some(txn_id),
            fail: Some(false),
        }
    }

    /// The discharge that rolls a transaction back.
    pub fn rollback(txn_id: TransactionId) -> Self {
        ControlMessage::Discharge {
            txn_id: Some(txn_id),
            fail: Some(true),
        }
    }

    /// The message's octets.
    pub fn to_payload(&self) -> Vec<u8> {
        let (kind, id) = self.parts();
        let mut payload = vec![0; Self::MAX_LEN];
        let mut len = 0;
        // SAFETY: the declaration fits the header; each pointer is that of a slice that is borrowed
        // for the call, with its length; the buffer and `len` overlap nothing.
        let answer = unsafe {
            ffi::daxurbi_payload(
                kind,
                id.as_ptr(),
                id.len(),
                payload.as_mut_ptr(),
                payload.len(),
                &mut len,
            )
        };
        assert_eq!(answer, answers::OK, "a payload has at most 44 octets");
        payload.truncate(len);
        payload
    }

    /// The message that these octets spell, if they spell one.
    pub fn from_payload(payload: &[u8]) -> Option<Self> {
        let mut kind = 0;
        let mut id = [0; TransactionId::MAX_LEN];
        let mut len = 0;
        // SAFETY: as above.
        let answer = unsafe {
            ffi::daxurbi_message(
                payload.as_ptr(),
                payload.len(),
                &mut kind,
                id.as_mut_ptr(),
                id.len(),
                &mut len,
            )
        };
        match answer {
            answers::OK => ControlMessage::from_parts(kind, id.get(..len)?),
            answers::NOT_A_MESSAGE => None,
            other => unreachable!("an id has at most 32 octets: {other}"),
        }
    }

    fn parts(&self) -> (u32, &[u8]) {
        match self {
            ControlMessage::Declare { global_id: None } => (kinds::DECLARE, &[]),
            ControlMessage::Declare {
                global_id: Some(id),
            } => (kinds::DECLARE_GLOBAL, id.as_bytes()),
            ControlMessage::Discharge { txn_id, fail } => {
                let kind = match fail {
                    None => kinds::DISCHARGE,
                    Some(false) => kinds::DISCHARGE_COMMIT,
                    Some(true) => kinds::DISCHARGE_ROLLBACK,
                };
                (kind, txn_id.as_ref().map_or(&[], TransactionId::as_bytes))
            }
        }
    }

    fn from_parts(kind: u32, id: &[u8]) -> Option<Self> {
        let discharge = |fail| ControlMessage::Discharge {
            txn_id: TransactionId::new(id).ok(),
            fail,
        };
        match kind {
            kinds::DECLARE => Some(ControlMessage::Declare { global_id: None }),
            kinds::DECLARE_GLOBAL => Some(ControlMessage::Declare {
                global_id: Some(GlobalId::new(id).ok()?),
            }),
            kinds::DISCHARGE => Some(discharge(None)),
            kinds::DISCHARGE_COMMIT => Some(discharge(Some(false))),
            kinds::DISCHARGE_ROLLBACK => Some(discharge(Some(true))),
            _ => None,
        }
    }
}
