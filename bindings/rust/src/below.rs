//! The layer below a session: what it will answer, and one that is asked.

use std::error::Error;
use std::fmt;

use crate::control::ControlMessage;
use crate::error::{ReportError, StepError};
use crate::frame::Frame;
use crate::reply::Answer;
use crate::session::Session;
use crate::step::Step;
use crate::stop::Refusal;

/// What the layer below will answer to a step.
#[derive(Clone, Copy, Debug, Default, PartialEq, Eq, Hash)]
pub enum Below {
    /// It takes each frame. Where the core lacks the memory to keep what a step hands, the step
    /// stops the session with [`Refusal::NoMemory`], and nothing was handed.
    #[default]
    Takes,
    /// It vetoes the commit, which is rolled back; to a step that is no commit the same as
    /// [`Takes`](Self::Takes).
    Vetoes,
    /// It refuses with this error: a plain frame, and the session stops; the attach of a control
    /// link, which isn't opened. A commit is vetoed, but for [`Refusal::NoMemory`], which stops the
    /// session with nothing handed.
    Refuses(Refusal),
}

impl From<Refusal> for Below {
    fn from(refusal: Refusal) -> Self {
        Below::Refuses(refusal)
    }
}

impl Below {
    /// The number of the answer, as the header has it.
    pub(crate) fn number(self) -> u32 {
        match self {
            Below::Takes => 0,
            Below::Vetoes => 1,
            Below::Refuses(Refusal::UnattachedHandle) => 2,
            Below::Refuses(Refusal::LinkNameNotFound) => 3,
            Below::Refuses(Refusal::HandleInUse) => 4,
            Below::Refuses(Refusal::IllegalState) => 5,
            Below::Refuses(Refusal::TransferToSender) => 6,
            Below::Refuses(Refusal::ConnectionStopped) => 7,
            Below::Refuses(Refusal::RemoteEnded) => 8,
            Below::Refuses(Refusal::NoMemory) => 9,
        }
    }
}

/// A layer below a session, as queues are: it is asked before a step, and handed frames after it.
///
/// ```
/// use daxurbi::{Below, Frame, Handle, Layer, Refusal, Session, Step};
///
/// /// A queue with a greatest length.
/// struct Queue {
///     frames: Vec<Frame>,
///     limit: usize,
/// }
///
/// impl Layer for Queue {
///     fn review_commit(&mut self, frames: &[Frame]) -> Below {
///         match self.frames.len() + frames.len() <= self.limit {
///             true => Below::Takes,
///             false => Below::Vetoes,
///         }
///     }
///
///     fn review(&mut self, step: &Step) -> Below {
///         match step {
///             Step::Transfer(_) if self.frames.len() == self.limit => {
///                 Below::Refuses(Refusal::IllegalState)
///             }
///             _ => Below::Takes,
///         }
///     }
///
///     fn take(&mut self, frame: &Frame) {
///         self.frames.push(frame.clone());
///     }
/// }
///
/// let mut queue = Queue { frames: Vec::new(), limit: 100 };
/// let mut session = Session::new()?;
/// let flow = Step::LinkFlow { handle: Handle(1), link_credit: 10 };
/// session.step_over(&flow, &mut queue)?;
/// assert_eq!(queue.frames[0].to_string(), "flow 1 10");
/// # Ok::<(), Box<dyn std::error::Error>>(())
/// ```
pub trait Layer {
    /// What the layer will answer to a step that hands the frames of this commit.
    fn review_commit(&mut self, frames: &[Frame]) -> Below;

    /// What the layer will answer to a step that is no commit.
    fn review(&mut self, step: &Step) -> Below;

    /// Takes a frame that was handed. It can't fail: it was reviewed.
    fn take(&mut self, frame: &Frame);
}

/// Why a step over a [`Layer`] has no answer.
#[derive(Clone, Debug, PartialEq, Eq)]
#[non_exhaustive]
pub enum DriveError {
    /// What a commit would hand couldn't be asked for; the session is as it was.
    Pending(ReportError),
    /// The step has no answer.
    Step(StepError),
}

impl From<ReportError> for DriveError {
    fn from(error: ReportError) -> Self {
        DriveError::Pending(error)
    }
}

impl From<StepError> for DriveError {
    fn from(error: StepError) -> Self {
        DriveError::Step(error)
    }
}

impl fmt::Display for DriveError {
    fn fmt(&self, f: &mut fmt::Formatter<'_>) -> fmt::Result {
        match self {
            DriveError::Pending(_) => f.write_str("the work of a commit can't be told"),
            DriveError::Step(_) => f.write_str("the step has no answer"),
        }
    }
}

impl Error for DriveError {
    fn source(&self) -> Option<&(dyn Error + 'static)> {
        match self {
            DriveError::Pending(error) => Some(error),
            DriveError::Step(error) => Some(error),
        }
    }
}

impl Session {
    /// One step over a layer: asks it, makes the step, and hands it the frames that the step
    /// handed, in order.
    ///
    /// # Errors
    ///
    /// As [`step`](Session::step), and as [`pending`](Session::pending) where the step is a commit.
    pub fn step_over(&mut self, step: &Step, layer: &mut impl Layer) -> Result<Answer, DriveError> {
        let below = match self.frames_of_commit(step)? {
            Some(frames) => layer.review_commit(&frames),
            None => layer.review(step),
        };
        let answer = self.step(step, below)?;
        answer.handed.iter().for_each(|frame| layer.take(frame));
        Ok(answer)
    }

    /// The frames that the step would hand as a commit: none where it isn't the commit of a live
    /// transaction.
    fn frames_of_commit(&mut self, step: &Step) -> Result<Option<Vec<Frame>>, ReportError> {
        let Step::Control { payload, .. } = step else {
            return Ok(None);
        };
        match ControlMessage::from_payload(payload) {
            Some(ControlMessage::Discharge {
                txn_id: Some(txn_id),
                fail: None | Some(false),
            }) => self.pending(&txn_id),
            _ => Ok(None),
        }
    }
}
