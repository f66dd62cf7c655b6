//! The text of steps, frames and replies, as the core reads and writes it.

mod frames;
mod hex;
mod put;
mod replies;
mod report;
mod steps;
#[cfg(test)]
mod tests;
mod unread;
mod words;

pub(crate) use hex::put_hex;
pub(crate) use put::{
    put, put_bool, put_number, put_optional, put_outcome, put_payload, put_settled, show,
};
pub(crate) use report::{read_answer, read_frames, read_stop};
pub use unread::Unread;
pub(crate) use words::Words;
