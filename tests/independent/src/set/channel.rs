//! The line rules of one channel.

use super::desks::{Desk, Desks};
use super::records::{Contact, Records};
use crate::telegram::Message;

const QUIET_SECONDS: u8 = 10;
const RELEASE_SECONDS: u8 = 120;
const RING_SECONDS: u8 = 15;

const NONE_NUMBER: u32 = 0;
pub const GENERAL: u32 = 1;
/// The type of a call that rang one desk.
pub const INDIVIDUAL: u32 = 3;
const DOWN: u32 = 1;
const UP: u32 = 2;
/// The base of calls that a desk starts.
const DESK_BASE: u32 = 999;

const STARTED: u32 = 0;
const ENDED_BY_CUT: u32 = 1;
/// By the mobile's cancel, too.
const ENDED_BY_HANDOVER: u32 = 2;
const ENDED_BY_QUIET: u32 = 3;
const ENDED_WITHOUT_ANSWER: u32 = 5;

#[derive(Clone, Copy, Debug, PartialEq, Eq)]
pub struct Call {
    pub call_type: u32,
    pub direction: u32,
    pub base: u32,
    pub source: u32,
    pub recipients: Desks,
}

#[derive(Clone, Copy, Debug, PartialEq, Eq)]
pub struct Arrival {
    /// Of the call in which it began, which it may outlive.
    pub call_type: u32,
    pub base: u8,
    pub number: u32,
    pub recipients: Desks,
}

/// A mobile waits for the called desk. While it does, its call is open.
#[derive(Clone, Copy, Debug, PartialEq, Eq)]
pub struct Ring {
    pub desk: u8,
    pub number: u32,
    /// Until it ends without an answer.
    pub seconds: u8,
}

#[derive(Clone, Copy, Debug, PartialEq, Eq)]
pub struct Channel {
    pub code: u8,
    pub entitled: Desks,
    pub holder: Option<u8>,
    pub pressed: bool,
    pub call: Option<Call>,
    pub arrival: Option<Arrival>,
    pub ring: Option<Ring>,
    /// Seconds until the call ends and until the holder goes, 0 if stopped.
    pub quiet: u8,
    pub release: u8,
}

/// What a desk's 550419 says; it need not match a ring.
#[derive(Clone, Copy, Debug, PartialEq, Eq)]
pub struct Answer {
    pub desk: u8,
    pub call_type: u32,
    pub source: u32,
    pub destination: u32,
}

/// What can happen to one channel. Whoever presses or cuts holds it.
#[derive(Clone, Copy, Debug, PartialEq, Eq)]
pub enum Event {
    Capture {
        desk: u8,
    },
    Release {
        desk: u8,
    },
    PressOn,
    PressOff,
    Cut,
    MobileOn {
        base: u8,
        number: u32,
    },
    MobileOff,
    Tick,
    Handover,
    /// The desk is one that may be called, on a channel that is idle.
    MobileCall {
        base: u8,
        number: u32,
        desk: u8,
    },
    MobileCancel,
    Answer(Answer),
}

impl Channel {
    pub fn new(code: u8, entitled: Desks) -> Self {
        Channel {
            code,
            entitled,
            holder: None,
            pressed: false,
            call: None,
            arrival: None,
            ring: None,
            quiet: 0,
            release: 0,
        }
    }

    pub fn happen(&mut self, event: Event, desks: &[Desk], out: &mut impl Records) {
        match event {
            Event::Capture { desk } => self.capture(desk, desks, out),
            Event::Release { desk } => self.release(desk, desks, out),
            Event::PressOn => self.press_on(desks, out),
            Event::PressOff => self.press_off(desks, out),
            Event::Cut => self.cut(desks, out),
            Event::MobileOn { base, number } => self.mobile_on(base, number, desks, out),
            Event::MobileOff => self.mobile_off(out),
            Event::Tick => self.tick(desks, out),
            Event::Handover => self.handover(desks, out),
            Event::MobileCall { base, number, desk } => {
                self.mobile_call(base, number, desk, desks, out);
            }
            Event::MobileCancel => self.end_ring(ENDED_BY_HANDOVER, desks, out),
            Event::Answer(answer) => self.answer(&answer, desks, out),
        }
    }

    /// Whether a mobile may ring a desk on it.
    pub fn is_idle(&self) -> bool {
        self.holder.is_none()
            && self.call.is_none()
            && self.arrival.is_none()
            && self.ring.is_none()
    }

    fn capture(&mut self, desk: u8, desks: &[Desk], out: &mut impl Records) {
        match self.holder {
            None if self.ring.is_some() => self.send_reply(desk, false, out),
            None => {
                self.holder = Some(desk);
                self.release = RELEASE_SECONDS;
                self.send_reply(desk, true, out);
                self.send_state(true, desks, out);
            }
            Some(holder) => self.send_reply(desk, holder == desk, out),
        }
    }

    fn release(&mut self, desk: u8, desks: &[Desk], out: &mut impl Records) {
        let by_holder = self.holder == Some(desk);
        self.send_reply(desk, by_holder, out);
        if by_holder {
            self.cut(desks, out);
        }
    }

    /// The arrival stays, so that its recipients hear of its end.
    fn cut(&mut self, desks: &[Desk], out: &mut impl Records) {
        self.send_press_off(desks, out);
        self.end_call(ENDED_BY_CUT, out);
        self.send_state(false, desks, out);
        *self = Channel {
            arrival: self.arrival,
            ..Channel::new(self.code, self.entitled)
        };
    }

    fn press_on(&mut self, desks: &[Desk], out: &mut impl Records) {
        let Some(holder) = self.holder else { return };
        let recipients = Desks::only(holder);
        let source = desks[usize::from(holder)].number;
        self.quiet = 0;
        self.release = RELEASE_SECONDS;
        self.pressed = true;
        out.contact(recipients, Contact::PressAnswer, self.code, true);
        self.open_call(
            Call {
                call_type: GENERAL,
                direction: DOWN,
                base: DESK_BASE,
                source,
                recipients,
            },
            out,
        );
        let notice = self.press_notice(source, true);
        out.telegram(recipients, &notice);
    }

    fn press_off(&mut self, desks: &[Desk], out: &mut impl Records) {
        self.send_press_off(desks, out);
        self.pressed = false;
        self.release = RELEASE_SECONDS;
        if self.arrival.is_none() {
            self.quiet = QUIET_SECONDS;
        }
    }

    fn mobile_on(&mut self, base: u8, number: u32, desks: &[Desk], out: &mut impl Records) {
        let recipients = match self.holder {
            Some(holder) => Desks::only(holder),
            None => self.listeners(desks),
        };
        let call_type = self.call_type();
        let arrival = Arrival {
            call_type,
            base,
            number,
            recipients,
        };
        self.arrival = Some(arrival);
        self.quiet = 0;
        if self.holder.is_some() {
            self.release = RELEASE_SECONDS;
        }
        out.contact(recipients, Contact::Incoming, self.code, true);
        out.telegram(recipients, &self.base_arrival(&arrival, true));
        self.open_call(
            Call {
                call_type,
                direction: UP,
                base: base.into(),
                source: number,
                recipients,
            },
            out,
        );
        out.telegram(recipients, &self.arrival_notice(&arrival, true));
    }

    fn mobile_off(&mut self, out: &mut impl Records) {
        self.send_mobile_off(out);
        self.arrival = None;
        if self.holder.is_some() {
            self.release = RELEASE_SECONDS;
        }
        if self.call.is_some() && !self.pressed {
            self.quiet = QUIET_SECONDS;
        }
    }

    /// To the called desk alone; the others must not learn the number.
    fn mobile_call(
        &mut self,
        base: u8,
        number: u32,
        desk: u8,
        desks: &[Desk],
        out: &mut impl Records,
    ) {
        let recipients = Desks::only(desk);
        self.ring = Some(Ring {
            desk,
            number,
            seconds: RING_SECONDS,
        });
        out.contact(recipients, Contact::Incoming, self.code, true);
        let notice = Message::RingNotice {
            channel: self.code.into(),
            call_type: INDIVIDUAL,
            source: number,
            destination: desks[usize::from(desk)].number,
        };
        out.telegram(recipients, &notice);
        self.open_call(
            Call {
                call_type: INDIVIDUAL,
                direction: UP,
                base: base.into(),
                source: number,
                recipients,
            },
            out,
        );
    }

    /// The desk that answers has captured the channel; the call stays open.
    fn answer(&mut self, answer: &Answer, desks: &[Desk], out: &mut impl Records) {
        let desk = answer.desk;
        let matches = self.is_answered_by(answer, desks);
        let reply = Message::AnswerReply {
            channel: self.code.into(),
            accepted: matches.into(),
        };
        out.telegram(Desks::only(desk), &reply);
        if !matches {
            return;
        }
        self.ring = None;
        self.holder = Some(desk);
        self.release = RELEASE_SECONDS;
        self.quiet = QUIET_SECONDS;
        self.send_call_result(desk, true, desks, out);
        self.send_state(true, desks, out);
    }

    /// Whether the answer is the called desk's and says all that the notice did.
    pub fn is_answered_by(&self, answer: &Answer, desks: &[Desk]) -> bool {
        self.ring.is_some_and(|ring| {
            let notice = Answer {
                desk: ring.desk,
                call_type: INDIVIDUAL,
                source: ring.number,
                destination: desks[usize::from(ring.desk)].number,
            };
            *answer == notice
        })
    }

    /// A ring that nobody answered.
    fn end_ring(&mut self, reason: u32, desks: &[Desk], out: &mut impl Records) {
        let Some(ring) = self.ring.take() else { return };
        out.contact(Desks::only(ring.desk), Contact::Incoming, self.code, false);
        self.send_call_result(ring.desk, false, desks, out);
        self.end_call(reason, out);
    }

    /// Only one of the timers falls in a tick.
    fn tick(&mut self, desks: &[Desk], out: &mut impl Records) {
        if let Some(ring) = &mut self.ring {
            ring.seconds -= 1;
            if ring.seconds == 0 {
                self.end_ring(ENDED_WITHOUT_ANSWER, desks, out);
            }
            return;
        }
        if self.pressed || self.arrival.is_some() {
            return;
        }
        if self.quiet > 0 {
            self.quiet -= 1;
            if self.quiet == 0 {
                self.end_call(ENDED_BY_QUIET, out);
            }
        } else if self.holder.is_some() {
            self.release -= 1;
            if self.release == 0 {
                self.send_state(false, desks, out);
                self.holder = None;
            }
        }
    }

    /// Whether the next tick ends a timer; no other tick sends anything.
    pub fn is_due(&self) -> bool {
        if let Some(ring) = self.ring {
            return ring.seconds == 1;
        }
        let due = self.quiet == 1 || self.quiet == 0 && self.release == 1;
        due && !self.pressed && self.arrival.is_none()
    }

    fn handover(&mut self, desks: &[Desk], out: &mut impl Records) {
        self.send_press_off(desks, out);
        self.send_mobile_off(out);
        self.end_ring(ENDED_BY_HANDOVER, desks, out);
        self.end_call(ENDED_BY_HANDOVER, out);
        self.send_state(false, desks, out);
    }

    /// The running desks among those entitled.
    pub fn listeners(&self, desks: &[Desk]) -> Desks {
        self.entitled.and(Desks::running(desks))
    }

    fn open_call(&mut self, call: Call, out: &mut impl Records) {
        if self.call.is_none() {
            self.call = Some(call);
            out.telegram(call.recipients, &self.call_message(&call, true, STARTED));
        }
    }

    fn end_call(&mut self, reason: u32, out: &mut impl Records) {
        if let Some(call) = self.call.take() {
            out.telegram(call.recipients, &self.call_message(&call, false, reason));
        }
    }

    fn send_press_off(&self, desks: &[Desk], out: &mut impl Records) {
        let Some(holder) = self.holder.filter(|_| self.pressed) else {
            return;
        };
        let recipients = Desks::only(holder);
        let number = desks[usize::from(holder)].number;
        out.contact(recipients, Contact::PressAnswer, self.code, false);
        let notice = self.press_notice(number, false);
        out.telegram(recipients, &notice);
    }

    /// To those who were told of the arrival, whoever holds by now.
    fn send_mobile_off(&self, out: &mut impl Records) {
        let Some(arrival) = self.arrival else { return };
        let recipients = arrival.recipients;
        out.contact(recipients, Contact::Incoming, self.code, false);
        out.telegram(recipients, &self.base_arrival(&arrival, false));
        out.telegram(recipients, &self.arrival_notice(&arrival, false));
    }

    fn send_reply(&self, desk: u8, granted: bool, out: &mut impl Records) {
        let reply = Message::CaptureReply {
            channel: self.code.into(),
            result: (!granted).into(),
        };
        out.telegram(Desks::only(desk), &reply);
    }

    fn send_call_result(&self, desk: u8, answered: bool, desks: &[Desk], out: &mut impl Records) {
        let result = Message::CallResult {
            channel: self.code.into(),
            call_type: INDIVIDUAL,
            result: answered.into(),
            destination: desks[usize::from(desk)].number,
        };
        out.telegram(Desks::only(desk), &result);
    }

    /// Nobody but the holder learns the holder's number.
    fn send_state(&self, held: bool, desks: &[Desk], out: &mut impl Records) {
        let Some(holder) = self.holder else { return };
        for desk in self.listeners(desks).iter() {
            let number = if desk == holder {
                desks[usize::from(desk)].number
            } else {
                NONE_NUMBER
            };
            let state = Message::CaptureState {
                channel: self.code.into(),
                number,
                state: held.into(),
            };
            out.telegram(Desks::only(desk), &state);
        }
    }

    fn call_message(&self, call: &Call, start: bool, reason: u32) -> Message {
        Message::CallStartEnd {
            channel: self.code.into(),
            base: call.base,
            call_type: call.call_type,
            media: 0,
            direction: call.direction,
            start: start.into(),
            reason,
            source: call.source,
            destination: NONE_NUMBER,
        }
    }

    /// The type of what begins now: that of the open call, or of the one that
    /// it opens itself.
    fn call_type(&self) -> u32 {
        self.call.map_or(GENERAL, |call| call.call_type)
    }

    /// A press ends before its call does, so the call gives it its type.
    fn press_notice(&self, number: u32, on: bool) -> Message {
        Message::CallerNotice {
            channel: self.code.into(),
            base: DESK_BASE,
            call_type: self.call_type(),
            direction: DOWN,
            number,
            order: on.into(),
        }
    }

    fn arrival_notice(&self, arrival: &Arrival, on: bool) -> Message {
        Message::CallerNotice {
            channel: self.code.into(),
            base: arrival.base.into(),
            call_type: arrival.call_type,
            direction: UP,
            number: arrival.number,
            order: on.into(),
        }
    }

    fn base_arrival(&self, arrival: &Arrival, on: bool) -> Message {
        Message::BaseArrival {
            channel: self.code.into(),
            base: arrival.base.into(),
            call_type: arrival.call_type,
            number: arrival.number,
            order: on.into(),
        }
    }
}
