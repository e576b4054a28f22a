//! The reader of telegrams.

use super::ranges::in_range;
use super::{DateTime, Message, Refusal, HEADER};

/// Reads one whole telegram into its organisation code and message.
pub fn read(bytes: &[u8]) -> Result<(u16, Message), Refusal> {
    let code = read_code(bytes)?;
    let identifier = read_identifier(bytes)?;
    Ok((code, read_body(identifier, &bytes[HEADER..])?))
}

/// The code of a telegram that breaks no rule of the header. The identifier
/// is left out, because it has its own refusal.
pub fn read_code(bytes: &[u8]) -> Result<u16, Refusal> {
    let code = || {
        if bytes.len() < HEADER || !bytes.starts_with(b"DV") {
            return None;
        }
        if decimal(&bytes[2..6])? as usize != bytes.len() {
            return None;
        }
        let code = decimal(&bytes[6..10])?;
        u16::try_from(code).ok().filter(|&code| code <= 1023)
    };
    code().ok_or(Refusal::Header)
}

/// The identifier in a telegram's header, if it is one of the table.
pub fn read_identifier(bytes: &[u8]) -> Result<u32, Refusal> {
    match decimal(&bytes[10..HEADER]) {
        Some(
            known @ (550411 | 550419 | 550421 | 550461 | 550464 | 550468 | 550469 | 550471 | 550473
            | 550477 | 550480 | 550600 | 550650 | 550651),
        ) => Ok(known),
        _ => Err(Refusal::Identifier),
    }
}

/// The message that an identifier and a body make.
pub fn read_body(identifier: u32, body: &[u8]) -> Result<Message, Refusal> {
    let mut fields = Fields(body);
    let message = match identifier {
        550411 => read_time_notice(&mut fields),
        550419 => read_ring_answer(&mut fields),
        550421 => read_operation_answer(&mut fields),
        550461 => Some(Message::TimeRequest),
        550464 => read_base_arrival(&mut fields),
        550468 => read_ring_notice(&mut fields),
        550469 => read_answer_reply(&mut fields),
        550471 => Some(Message::OperationRequest),
        550473 => read_call_start_end(&mut fields),
        550477 => read_caller_notice(&mut fields),
        550480 => read_call_result(&mut fields),
        550600 => read_capture_request(&mut fields),
        550650 => read_capture_reply(&mut fields),
        550651 => read_capture_state(&mut fields),
        _ => return Err(Refusal::Identifier),
    };
    message
        .filter(|message| fields.0.is_empty() && in_range(message))
        .ok_or(Refusal::Body)
}

/// The number that up to nine ASCII digits spell.
pub fn decimal(digits: &[u8]) -> Option<u32> {
    digits.iter().try_fold(0, |value, byte| {
        byte.is_ascii_digit()
            .then(|| value * 10 + u32::from(byte - b'0'))
    })
}

/// What is left of a body, taken apart from the front.
struct Fields<'a>(&'a [u8]);

impl Fields<'_> {
    fn take(&mut self, width: usize) -> Option<u32> {
        if self.0.len() < width {
            return None;
        }
        let (field, rest) = self.0.split_at(width);
        self.0 = rest;
        decimal(field)
    }

    fn channel(&mut self) -> Option<u32> {
        self.take(3)
    }

    fn base(&mut self) -> Option<u32> {
        self.take(3)
    }

    fn digit(&mut self) -> Option<u32> {
        self.take(1)
    }

    fn number(&mut self) -> Option<u32> {
        self.take(8)
    }

    /// A number after its len, which can only be 8 and so is not kept.
    fn counted_number(&mut self) -> Option<u32> {
        self.digit().filter(|&len| len == 8)?;
        self.number()
    }
}

fn read_time_notice(fields: &mut Fields) -> Option<Message> {
    Some(Message::TimeNotice(DateTime {
        year: fields.take(4)?,
        month: fields.take(2)?,
        day: fields.take(2)?,
        hour: fields.take(2)?,
        minute: fields.take(2)?,
        second: fields.take(2)?,
    }))
}

fn read_operation_answer(fields: &mut Fields) -> Option<Message> {
    Some(Message::OperationAnswer {
        system: fields.digit()?,
        state: fields.digit()?,
    })
}

fn read_base_arrival(fields: &mut Fields) -> Option<Message> {
    Some(Message::BaseArrival {
        channel: fields.channel()?,
        base: fields.base()?,
        call_type: fields.digit()?,
        number: fields.number()?,
        order: fields.digit()?,
    })
}

fn read_call_start_end(fields: &mut Fields) -> Option<Message> {
    Some(Message::CallStartEnd {
        channel: fields.channel()?,
        base: fields.base()?,
        call_type: fields.digit()?,
        media: fields.digit()?,
        direction: fields.digit()?,
        start: fields.digit()?,
        reason: fields.take(2)?,
        source: fields.counted_number()?,
        destination: fields.counted_number()?,
    })
}

fn read_caller_notice(fields: &mut Fields) -> Option<Message> {
    Some(Message::CallerNotice {
        channel: fields.channel()?,
        base: fields.base()?,
        call_type: fields.digit()?,
        direction: fields.digit()?,
        number: fields.number()?,
        order: fields.digit()?,
    })
}

fn read_capture_request(fields: &mut Fields) -> Option<Message> {
    Some(Message::CaptureRequest {
        channel: fields.channel()?,
        number: fields.counted_number()?,
        order: fields.digit()?,
    })
}

fn read_capture_reply(fields: &mut Fields) -> Option<Message> {
    Some(Message::CaptureReply {
        channel: fields.channel()?,
        result: fields.digit()?,
    })
}

fn read_capture_state(fields: &mut Fields) -> Option<Message> {
    Some(Message::CaptureState {
        channel: fields.channel()?,
        number: fields.counted_number()?,
        state: fields.digit()?,
    })
}

fn read_ring_notice(fields: &mut Fields) -> Option<Message> {
    Some(Message::RingNotice {
        channel: fields.channel()?,
        call_type: fields.digit()?,
        source: fields.counted_number()?,
        destination: fields.counted_number()?,
    })
}

fn read_ring_answer(fields: &mut Fields) -> Option<Message> {
    Some(Message::RingAnswer {
        channel: fields.channel()?,
        call_type: fields.digit()?,
        source: fields.counted_number()?,
        destination: fields.counted_number()?,
    })
}

fn read_answer_reply(fields: &mut Fields) -> Option<Message> {
    Some(Message::AnswerReply {
        channel: fields.channel()?,
        accepted: fields.digit()?,
    })
}

fn read_call_result(fields: &mut Fields) -> Option<Message> {
    Some(Message::CallResult {
        channel: fields.channel()?,
        call_type: fields.digit()?,
        result: fields.digit()?,
        destination: fields.counted_number()?,
    })
}
