//! Telegrams on the command link: the messages, a reader and a writer.

mod ranges;
mod reader;
#[cfg(test)]
mod tests;
mod writer;

pub use crate::refusal::Refusal;
pub use reader::{decimal, read, read_body, read_code, read_identifier};
pub use writer::{write, written};

/// Bytes before the body.
pub const HEADER: usize = 16;

#[derive(Clone, Copy, Debug, PartialEq, Eq)]
pub struct DateTime {
    pub year: u32,
    pub month: u32,
    pub day: u32,
    pub hour: u32,
    pub minute: u32,
    pub second: u32,
}

/// The messages. Values are kept as the numbers their digits spell, so the
/// type can also hold values out of range; the writer refuses those.
#[derive(Clone, Copy, Debug, PartialEq, Eq)]
pub enum Message {
    TimeNotice(DateTime),
    OperationAnswer {
        system: u32,
        state: u32,
    },
    TimeRequest,
    BaseArrival {
        channel: u32,
        base: u32,
        call_type: u32,
        number: u32,
        order: u32,
    },
    OperationRequest,
    CallStartEnd {
        channel: u32,
        base: u32,
        call_type: u32,
        media: u32,
        direction: u32,
        start: u32,
        reason: u32,
        source: u32,
        destination: u32,
    },
    CallerNotice {
        channel: u32,
        base: u32,
        call_type: u32,
        direction: u32,
        number: u32,
        order: u32,
    },
    CaptureRequest {
        channel: u32,
        number: u32,
        order: u32,
    },
    CaptureReply {
        channel: u32,
        result: u32,
    },
    CaptureState {
        channel: u32,
        number: u32,
        state: u32,
    },
    RingNotice {
        channel: u32,
        call_type: u32,
        source: u32,
        destination: u32,
    },
    RingAnswer {
        channel: u32,
        call_type: u32,
        source: u32,
        destination: u32,
    },
    AnswerReply {
        channel: u32,
        accepted: u32,
    },
    CallResult {
        channel: u32,
        call_type: u32,
        result: u32,
        destination: u32,
    },
}

impl Message {
    pub fn identifier(&self) -> u32 {
        match self {
            Message::TimeNotice(_) => 550411,
            Message::OperationAnswer { .. } => 550421,
            Message::TimeRequest => 550461,
            Message::BaseArrival { .. } => 550464,
            Message::OperationRequest => 550471,
            Message::CallStartEnd { .. } => 550473,
            Message::CallerNotice { .. } => 550477,
            Message::CaptureRequest { .. } => 550600,
            Message::CaptureReply { .. } => 550650,
            Message::CaptureState { .. } => 550651,
            Message::RingNotice { .. } => 550468,
            Message::RingAnswer { .. } => 550419,
            Message::AnswerReply { .. } => 550469,
            Message::CallResult { .. } => 550480,
        }
    }

    /// Bytes of the whole telegram.
    pub fn length(&self) -> usize {
        match self {
            Message::TimeNotice(_) => 30,
            Message::OperationAnswer { .. } => 18,
            Message::TimeRequest | Message::OperationRequest => 16,
            Message::BaseArrival { .. } => 32,
            Message::CallStartEnd { .. } => 46,
            Message::CallerNotice { .. } => 33,
            Message::CaptureRequest { .. } | Message::CaptureState { .. } => 29,
            Message::CaptureReply { .. } | Message::AnswerReply { .. } => 20,
            Message::RingNotice { .. } | Message::RingAnswer { .. } => 38,
            Message::CallResult { .. } => 30,
        }
    }
}
