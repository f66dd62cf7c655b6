//! A session over the proved core.

use std::fs::File;
use std::io::{self, Read};

use crate::below::Below;
use crate::error::{OpenError, OutOfMemory, ReportError, StepError};
use crate::ffi::{self, answers, Slot};
use crate::frame::Frame;
use crate::id::TransactionId;
use crate::lines::{read_answer, read_frames, read_stop};
use crate::reply::Answer;
use crate::step::Step;
use crate::stop::Stop;

/// A session of AMQP 1.0 that serves transactions. Part 4 of the standard, section 4.4.
///
/// It holds the frames that come under each live transaction, and hands them to the layer below
/// when it commits. It keeps no record of what it did: its memory is that of its live transactions
/// and open links.
///
/// ```
/// use daxurbi::{Below, Handle, Reply, Session, Step};
///
/// let mut session = Session::new()?;
/// let attach = Step::AttachCoordinator { name: "c".parse()?, handle: Handle(0) };
/// let answer = session.step(&attach, Below::Takes)?;
/// assert!(matches!(answer.reply, Reply::Attached(_)));
/// # Ok::<(), Box<dyn std::error::Error>>(())
/// ```
#[derive(Debug)]
pub struct Session {
    slot: Slot,
    /// The line of the last step; kept for its memory.
    line: Vec<u8>,
    /// What was last read; kept for its memory.
    text: Vec<u8>,
}

// SAFETY: an open slot may be passed from one thread to another between calls, the library has no
// state besides, and a session is used by one call at a time, since each takes it by `&mut`.
unsafe impl Send for Session {}

impl Session {
    /// How many ids [`with_ids`](Self::with_ids) takes at most.
    pub const MAX_IDS: usize = 64;

    /// How long a text is that is read without asking for its length first.
    const TEXT_LEN: usize = 4096;

    /// A session whose transactions get random ids, of a seed from the system.
    ///
    /// # Errors
    ///
    /// Where the system gives no random octets or no memory.
    pub fn new() -> io::Result<Self> {
        let mut seed = [0; 32];
        File::open("/dev/urandom")?.read_exact(&mut seed)?;
        Session::with_seed(&seed).map_err(|_| io::ErrorKind::OutOfMemory.into())
    }

    /// A session whose transactions get random ids of this seed, which is to be used once and told
    /// to nobody.
    ///
    /// # Errors
    ///
    /// Out of memory.
    pub fn with_seed(seed: &[u8; 32]) -> Result<Self, OutOfMemory> {
        // SAFETY: the slot is closed, and the seed is borrowed for the call.
        Session::opened(|slot| unsafe { ffi::daxurbi_open(slot, seed.as_ptr(), seed.len()) })
    }

    /// A session whose declares draw these ids, and then the last one again and again.
    ///
    /// # Errors
    ///
    /// Where there are no ids, or more than [`MAX_IDS`](Self::MAX_IDS); out of memory.
    pub fn with_ids(ids: &[[u8; 16]]) -> Result<Self, OpenError> {
        if ids.is_empty() || ids.len() > Self::MAX_IDS {
            return Err(OpenError::Ids { count: ids.len() });
        }
        let octets = ids.concat();
        // SAFETY: the slot is closed, and the octets are borrowed for the call.
        Session::opened(|slot| unsafe {
            ffi::daxurbi_open_with_ids(slot, octets.as_ptr(), octets.len())
        })
        .map_err(|OutOfMemory(())| OpenError::NoMemory)
    }

    fn opened(open: impl FnOnce(&mut Slot) -> u32) -> Result<Self, OutOfMemory> {
        let mut slot = Slot::closed();
        match open(&mut slot) {
            answers::OK => Ok(Session {
                slot,
                line: Vec::new(),
                text: vec![0; Self::TEXT_LEN],
            }),
            answers::NO_MEMORY => Err(OutOfMemory(())),
            other => unreachable!("a closed slot was given what it asks for: {other}"),
        }
    }

    /// One step, where the layer below answers as it is said.
    ///
    /// Which frames a commit would hand, [`pending`](Self::pending) tells before.
    ///
    /// # Errors
    ///
    /// - [`StepError::Stopped`] where this step stopped the session, which is final: the layer
    ///   below refused a plain frame, a frame is under an id that isn't live, or the step is an end;
    /// - [`StepError::StoppedBefore`] where one had stopped it before;
    /// - [`StepError::NoMemory`], and [`StepError::NoLinkLeft`], where nothing was done;
    /// - [`StepError::Report`] where the step was done, but its answer couldn't be read.
    pub fn step(&mut self, step: &Step, below: Below) -> Result<Answer, StepError> {
        self.line.clear();
        step.put(&mut self.line);
        // SAFETY: the slot is open, and the line is borrowed for the call.
        let answer = unsafe {
            ffi::daxurbi_step(
                &mut self.slot,
                self.line.as_ptr(),
                self.line.len(),
                below.number(),
            )
        };
        match answer {
            answers::OK => Ok(self.answer()?),
            answers::STOPPED => {
                let (stop, handed) = self.stop()?;
                Err(StepError::Stopped { stop, handed })
            }
            answers::STOPPED_BEFORE => Err(StepError::StoppedBefore),
            answers::NO_MEMORY => Err(StepError::NoMemory),
            answers::NO_LINK_LEFT => Err(StepError::NoLinkLeft),
            other => unreachable!("each step has a line: {other}"),
        }
    }

    /// The answer to the last step that was answered, where the session hasn't stopped.
    ///
    /// # Errors
    ///
    /// Where no step was answered, the session stopped, or it is out of memory.
    pub fn answer(&mut self) -> Result<Answer, ReportError> {
        Ok(read_answer(self.report()?)?)
    }

    /// Why the session stopped, and which frames of its last step were handed.
    ///
    /// # Errors
    ///
    /// Where the session hasn't stopped, or is out of memory.
    pub fn stop(&mut self) -> Result<(Stop, Vec<Frame>), ReportError> {
        Ok(read_stop(self.report()?)?)
    }

    /// The frames that a commit of this transaction would hand, in order; none where it isn't live.
    ///
    /// # Errors
    ///
    /// Out of memory.
    pub fn pending(&mut self, txn_id: &TransactionId) -> Result<Option<Vec<Frame>>, ReportError> {
        let id = txn_id.as_bytes();
        let text = read_text(&mut self.text, |out, needed| {
            // SAFETY: the slot is open; the id, the buffer and `needed` are borrowed for the call.
            unsafe {
                ffi::daxurbi_pending(
                    &mut self.slot,
                    id.as_ptr(),
                    id.len(),
                    out.as_mut_ptr(),
                    out.len(),
                    needed,
                )
            }
        });
        match text {
            Ok(text) => Ok(Some(read_frames(text)?)),
            Err(answers::NOT_LIVE) => Ok(None),
            Err(answers::NO_MEMORY) => Err(ReportError::NoMemory),
            Err(other) => unreachable!("the slot is open and the id short: {other}"),
        }
    }

    /// The text of the last report.
    fn report(&mut self) -> Result<&[u8], ReportError> {
        let text = read_text(&mut self.text, |out, needed| {
            // SAFETY: the slot is open; the buffer and `needed` are borrowed for the call.
            unsafe { ffi::daxurbi_report(&mut self.slot, out.as_mut_ptr(), out.len(), needed) }
        });
        match text {
            Ok(text) => Ok(text),
            Err(answers::NO_MEMORY) => Err(ReportError::NoMemory),
            Err(other) => unreachable!("the slot is open: {other}"),
        }
    }
}

impl Drop for Session {
    fn drop(&mut self) {
        // SAFETY: the slot is open, and isn't used again.
        unsafe {
            ffi::daxurbi_close(&mut self.slot);
        }
    }
}

/// Reads a text into the buffer, which grows where it is too short; or the answer of the call,
/// where it gives none.
fn read_text(
    buffer: &mut Vec<u8>,
    mut read: impl FnMut(&mut [u8], &mut usize) -> u32,
) -> Result<&[u8], u32> {
    let mut needed = 0;
    let mut answer = read(buffer, &mut needed);
    if answer == answers::SHORT_BUFFER {
        buffer.resize(needed, 0);
        answer = read(buffer, &mut needed);
    }
    match answer {
        answers::OK => Ok(&buffer[..needed]),
        other => Err(other),
    }
}
