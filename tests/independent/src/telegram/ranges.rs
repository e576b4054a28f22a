//! The values that the fields of a telegram may have.

use super::{DateTime, Message};

/// Whether the writer can spell all of the message's values.
#[rustfmt::skip] // One arm a message keeps the fields easy to check.
pub fn in_range(message: &Message) -> bool {
    match *message {
        Message::TimeNotice(at) => is_date_time(&at),
        Message::OperationAnswer { system, state } => is_flag(system) && is_flag(state),
        Message::TimeRequest | Message::OperationRequest => true,
        Message::BaseArrival { channel, base, call_type, number, order } =>
            is_channel(channel) && is_base(base) && is_call_type(call_type)
                && is_number(number) && is_flag(order),
        Message::CallStartEnd {
            channel, base, call_type, media, direction, start, reason, source, destination,
        } =>
            is_channel(channel) && is_base(base) && is_call_type(call_type)
                && is_flag(media) && is_direction(direction) && is_flag(start)
                && is_reason(reason) && is_number(source) && is_number(destination),
        Message::CallerNotice { channel, base, call_type, direction, number, order } =>
            is_channel(channel) && is_base(base) && is_call_type(call_type)
                && is_direction(direction) && is_number(number) && is_flag(order),
        Message::CaptureRequest { channel, number, order } =>
            is_channel(channel) && is_number(number) && is_flag(order),
        Message::CaptureReply { channel, result } => is_channel(channel) && is_flag(result),
        Message::CaptureState { channel, number, state } =>
            is_channel(channel) && is_number(number) && is_flag(state),
        Message::RingNotice { channel, call_type, source, destination }
        | Message::RingAnswer { channel, call_type, source, destination } =>
            is_channel(channel) && is_call_type(call_type)
                && is_number(source) && is_number(destination),
        Message::AnswerReply { channel, accepted } => is_channel(channel) && is_flag(accepted),
        Message::CallResult { channel, call_type, result, destination } =>
            is_channel(channel) && is_call_type(call_type)
                && is_flag(result) && is_number(destination),
    }
}

fn is_channel(value: u32) -> bool {
    matches!(value, 0..=99 | 187..=206 | 999)
}

fn is_base(value: u32) -> bool {
    matches!(value, 0..=29 | 997..=999)
}

fn is_call_type(value: u32) -> bool {
    matches!(value, 1..=3)
}

fn is_direction(value: u32) -> bool {
    matches!(value, 1 | 2)
}

fn is_reason(value: u32) -> bool {
    matches!(value, 0 | 1 | 2 | 3 | 5 | 9)
}

fn is_number(value: u32) -> bool {
    value <= 99_999_999
}

fn is_flag(value: u32) -> bool {
    value <= 1
}

fn is_date_time(at: &DateTime) -> bool {
    (2000..=2099).contains(&at.year)
        && (1..=12).contains(&at.month)
        && (1..=days_in_month(at.year, at.month)).contains(&at.day)
        && at.hour <= 23
        && at.minute <= 59
        && at.second <= 59
}

fn days_in_month(year: u32, month: u32) -> u32 {
    let leap = match (year % 400, year % 100, year % 4) {
        (0, _, _) => true,
        (_, 0, _) => false,
        (_, _, rest) => rest == 0,
    };
    match month {
        2 if leap => 29,
        2 => 28,
        4 | 6 | 9 | 11 => 30,
        _ => 31,
    }
}
