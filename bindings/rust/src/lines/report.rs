//! The lines of one step's report.

use super::{Unread, Words};
use crate::frame::Frame;
use crate::reply::Answer;
use crate::stop::Stop;

/// The lines of a text, each of which ends with a line feed.
fn lines(text: &[u8]) -> impl Iterator<Item = &[u8]> {
    text.split_inclusive(|octet| *octet == b'\n')
        .map(|line| line.strip_suffix(b"\n").unwrap_or(line))
}

/// Reads the report of a step that was answered: the reply, then lines `out FRAME`, then lines
/// `taken FRAME`.
pub(crate) fn read_answer(text: &[u8]) -> Result<Answer, Unread> {
    let mut lines = lines(text);
    let mut answer = Answer {
        reply: Words::read(lines.next().ok_or(Unread(()))?, Words::reply)?,
        sent_back: Vec::new(),
        handed: Vec::new(),
    };
    for line in lines {
        match line.strip_prefix(b"out ") {
            Some(frame) => answer.sent_back.push(Words::read(frame, Words::frame)?),
            None => answer.handed.push(taken(line)?),
        }
    }
    Ok(answer)
}

/// Reads the report of a step that stopped the session: `stop WORD`, then `handed N`, then lines
/// `taken FRAME`.
pub(crate) fn read_stop(text: &[u8]) -> Result<(Stop, Vec<Frame>), Unread> {
    let mut lines = lines(text);
    let mut front = |word: &[u8]| lines.next()?.strip_prefix(word);
    let stop = front(b"stop ").ok_or(Unread(()))?;
    let count = front(b"handed ").ok_or(Unread(()))?;
    let handed: Vec<Frame> = lines.map(taken).collect::<Result<_, _>>()?;
    if Words::read(count, Words::u64)? != handed.len() as u64 {
        return Err(Unread(()));
    }
    Ok((Words::read(stop, Words::stop)?, handed))
}

/// Reads lines `FRAME`.
pub(crate) fn read_frames(text: &[u8]) -> Result<Vec<Frame>, Unread> {
    lines(text)
        .map(|line| Words::read(line, Words::frame))
        .collect()
}

fn taken(line: &[u8]) -> Result<Frame, Unread> {
    let frame = line.strip_prefix(b"taken ").ok_or(Unread(()))?;
    Words::read(frame, Words::frame)
}
