//! Transactions of AMQP 1.0 (OASIS AMQP 1.0, part 4), on the side of the resource, over a core that
//! is proved.
//!
//! A [`Session`] takes [`Step`]s: frames of the peer, messages on control links, and ends. It holds
//! what comes under a transaction, and hands it to the layer below when the transaction commits. It
//! opens no socket and encodes no performative: it stands below an AMQP connection and above
//! queues.
//!
//! The layer below is the program's. So a step is made in three parts: ask which [`Frame`]s a
//! commit would hand ([`Session::pending`]); tell what the layer will answer ([`Below`]); and give
//! the layer what was handed ([`Answer::handed`]). [`Session::step_over`] makes the three over a
//! [`Layer`].
//!
//! ```
//! use daxurbi::{
//!     Below, ControlMessage, Frame, Handle, Reply, Session, Step, TransactionalState, Transfer,
//! };
//!
//! let mut session = Session::new()?;
//! let attach = Step::AttachCoordinator { name: "c".parse()?, handle: Handle(0) };
//! let Reply::Attached(link) = session.step(&attach, Below::Takes)?.reply else { panic!() };
//!
//! let payload = ControlMessage::Declare { global_id: None }.to_payload();
//! let declare = Step::Control { link, payload };
//! let Reply::Declared(txn_id) = session.step(&declare, Below::Takes)?.reply else { panic!() };
//!
//! let post = Step::Transfer(Transfer {
//!     handle: Handle(1),
//!     delivery_id: Some(7),
//!     settled: None,
//!     state: Some(TransactionalState::under(txn_id)),
//!     payload: b"hi".to_vec(),
//! });
//! let answer = session.step(&post, Below::Takes)?;
//! assert!(answer.handed.is_empty());
//! let presumptive = format!("disposition receiver 7 - true txn:{txn_id}:accepted");
//! assert_eq!(answer.sent_back[0].to_string(), presumptive);
//!
//! // The queues have room, so they take the commit. Else: `Below::Vetoes`.
//! let work = session.pending(&txn_id)?.expect("the transaction is live");
//! assert_eq!(work[0].to_string(), "transfer 1 7 - - 6869");
//!
//! let payload = ControlMessage::commit(txn_id).to_payload();
//! let answer = session.step(&Step::Control { link, payload }, Below::Takes)?;
//! assert_eq!(answer.reply, Reply::Accepted);
//! assert_eq!(answer.handed, work);
//! # Ok::<(), Box<dyn std::error::Error>>(())
//! ```
//!
//! What is proved is the core, in the archive that this crate links: which answer a step has, and
//! which frames it hands. That this crate calls the core as the core's C header asks, writes steps
//! and reads answers rightly, and that the program's layer below does what it said it would, is
//! tested or the program's.

#![forbid(unsafe_op_in_unsafe_fn)]
#![warn(missing_docs)]

mod below;
mod control;
mod delivery;
mod error;
mod ffi;
mod frame;
mod id;
mod lines;
mod link;
mod reply;
mod session;
mod step;
mod stop;

pub use below::{Below, DriveError, Layer};
pub use control::ControlMessage;
pub use delivery::{DeliveryState, Outcome, TransactionalState};
pub use error::{OpenError, OutOfMemory, ReportError, StepError};
pub use frame::{Attach, Detach, Disposition, Flow, Frame, Transfer};
pub use id::{GlobalId, IdError, TransactionId};
pub use lines::Unread;
pub use link::{ControlLink, Handle, LinkName, LinkNameError, Role};
pub use reply::{Answer, RejectText, Reply, TransactionError};
pub use session::Session;
pub use step::{DispositionState, Step};
pub use stop::{Refusal, Stop};
