//! The writer of telegrams.

use super::ranges::in_range;
use super::{DateTime, Message, Refusal, HEADER};

/// Writes a message under an organisation code to the front of the buffer and
/// gives the count of bytes. A code above 1023 is a value out of range here.
/// Refused, it leaves the buffer as it was.
pub fn write(code: u16, message: &Message, buffer: &mut [u8]) -> Result<usize, Refusal> {
    if code > 1023 || !in_range(message) {
        return Err(Refusal::Body);
    }
    let length = message.length();
    let space = buffer.get_mut(..length).ok_or(Refusal::Space)?;
    let (header, body) = space.split_at_mut(HEADER);
    header[..2].copy_from_slice(b"DV");
    let mut digits = Digits(&mut header[2..]);
    digits.put::<4>(length as u32);
    digits.put::<4>(u32::from(code));
    digits.put::<6>(message.identifier());
    write_body(message, &mut Digits(body));
    Ok(length)
}

/// The telegram as bytes of its own.
pub fn written(code: u16, message: &Message) -> Result<Vec<u8>, Refusal> {
    let mut telegram = vec![0; message.length()];
    write(code, message, &mut telegram)?;
    Ok(telegram)
}

/// What is left to fill, from the front.
struct Digits<'a>(&'a mut [u8]);

impl Digits<'_> {
    /// Writes a value as so many digits; it is in range, so it has no more.
    fn put<const WIDTH: usize>(&mut self, mut value: u32) {
        let (field, rest) = std::mem::take(&mut self.0).split_at_mut(WIDTH);
        for digit in field.iter_mut().rev() {
            *digit = b'0' + (value % 10) as u8;
            value /= 10;
        }
        self.0 = rest;
    }

    fn channel(&mut self, value: u32) {
        self.put::<3>(value);
    }

    fn base(&mut self, value: u32) {
        self.put::<3>(value);
    }

    fn digit(&mut self, value: u32) {
        self.put::<1>(value);
    }

    fn number(&mut self, value: u32) {
        self.put::<8>(value);
    }

    fn counted_number(&mut self, value: u32) {
        self.digit(8);
        self.number(value);
    }
}

#[rustfmt::skip] // One field after another, in the order of the table.
fn write_body(message: &Message, digits: &mut Digits) {
    match *message {
        Message::TimeNotice(at) => write_date_time(&at, digits),
        Message::OperationAnswer { system, state } => {
            digits.digit(system);
            digits.digit(state);
        }
        Message::TimeRequest | Message::OperationRequest => {}
        Message::BaseArrival { channel, base, call_type, number, order } => {
            digits.channel(channel);
            digits.base(base);
            digits.digit(call_type);
            digits.number(number);
            digits.digit(order);
        }
        Message::CallStartEnd { .. } => write_call_start_end(message, digits),
        Message::CallerNotice { channel, base, call_type, direction, number, order } => {
            digits.channel(channel);
            digits.base(base);
            digits.digit(call_type);
            digits.digit(direction);
            digits.number(number);
            digits.digit(order);
        }
        Message::CaptureReply { channel, result: last }
        | Message::AnswerReply { channel, accepted: last } => {
            digits.channel(channel);
            digits.digit(last);
        }
        Message::CaptureRequest { channel, number, order: last }
        | Message::CaptureState { channel, number, state: last } => {
            digits.channel(channel);
            digits.counted_number(number);
            digits.digit(last);
        }
        Message::RingNotice { .. } | Message::RingAnswer { .. } | Message::CallResult { .. } =>
            write_ring(message, digits),
    }
}

#[rustfmt::skip] // As above.
fn write_ring(message: &Message, digits: &mut Digits) {
    match *message {
        Message::RingNotice { channel, call_type, source, destination }
        | Message::RingAnswer { channel, call_type, source, destination } => {
            digits.channel(channel);
            digits.digit(call_type);
            digits.counted_number(source);
            digits.counted_number(destination);
        }
        Message::CallResult { channel, call_type, result, destination } => {
            digits.channel(channel);
            digits.digit(call_type);
            digits.digit(result);
            digits.counted_number(destination);
        }
        _ => {}
    }
}

fn write_date_time(at: &DateTime, digits: &mut Digits) {
    digits.put::<4>(at.year);
    for value in [at.month, at.day, at.hour, at.minute, at.second] {
        digits.put::<2>(value);
    }
}

#[rustfmt::skip] // As above.
fn write_call_start_end(message: &Message, digits: &mut Digits) {
    let Message::CallStartEnd {
        channel, base, call_type, media, direction, start, reason, source, destination,
    } = *message else {
        return;
    };
    digits.channel(channel);
    digits.base(base);
    for digit in [call_type, media, direction, start] {
        digits.digit(digit);
    }
    digits.put::<2>(reason);
    digits.counted_number(source);
    digits.counted_number(destination);
}
