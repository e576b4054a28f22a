//! What feeds bring about with rings, and with what follows a ring.

use super::{find, Coverage};
use crate::set::channel::{Answer, Channel, INDIVIDUAL};
use crate::set::desks::Phase;
use crate::set::entry::{self, Entry};
use crate::set::plan::{self, Lines};
use crate::set::Set;
use crate::telegram::{self, decimal, Message};
use std::collections::BTreeMap;

pub const SITUATIONS: [&str; 68] = [
    "ring of desk 0",
    "ring of desk 1",
    "ring of desk 2",
    "ring of desk 3",
    "ring of one among several listeners",
    "ring of a desk that another channel rings",
    "ring of a desk that holds another channel",
    "ring by a mobile with a desk's number",
    "ring from base 0",
    "ring from base 29",
    "ring after a handover that ended one",
    "call from base 30",
    "call a byte too short",
    "call a byte too long",
    "cancel a byte too short",
    "cancel a byte too long",
    "call on a channel out of the plan",
    "call by a mobile with a letter in its number",
    "call by a mobile with the none-number",
    "call of a number with a letter",
    "call of the none-number",
    "call of a desk that is not running",
    "call of a desk that is not entitled",
    "call of a desk that is entitled elsewhere",
    "call of a number that no desk has",
    "call on a channel with nothing but a holder",
    "call on a channel with nothing but a call",
    "call on a channel with nothing but an arrival",
    "call during a ring",
    "answer that matches",
    "answer that several desks learn of",
    "answer in the last second",
    "answer by another desk than the called one",
    "answer with another source",
    "answer with another destination",
    "answer with type 1",
    "answer with type 2",
    "answer of another channel's ring",
    "answer on an idle channel",
    "answer while another desk holds",
    "answer once more after the first",
    "answer after the hold that it began",
    "answer after the fifteenth tick",
    "answer after the cancel",
    "answer with a bad body during a ring",
    "answer by a desk that is not running",
    "answer on a channel out of the plan",
    "answer by a desk that is not entitled",
    "cancel of a ring",
    "cancel after the answer",
    "cancel after the end",
    "capture request during a ring",
    "release request during a ring",
    "press by the called desk during a ring",
    "cut by the called desk during a ring",
    "mobile on during a ring",
    "mobile off during a ring",
    "ring ended by the fifteenth tick",
    "two rings ended by one tick",
    "handover during a ring",
    "handover during two rings",
    "press on in a call that rang",
    "mobile on in a call that rang",
    "mobile off in a call that rang",
    "cut that leaves an arrival of a call that rang",
    "mobile off of a call that rang and is over",
    "quiet end of a call that rang",
    "general call under a hold that an answer began",
];

/// What the set does not keep of the rings before.
#[derive(Default)]
pub struct History {
    /// The last ring of each channel, if it is over.
    past: BTreeMap<u8, Past>,
    /// Whether the last handover ended a ring.
    handed_over: bool,
}

struct Past {
    /// The answer that it waited for.
    right: Answer,
    end: End,
}

#[derive(Clone, Copy, PartialEq, Eq)]
enum End {
    /// And the hold that this began lasts.
    Answered,
    Released,
    TimedOut,
    Cancelled,
}

impl History {
    /// Takes in what an accepted entry has changed.
    pub fn follow(&mut self, lines: &Lines, tick: bool, after: &Set) {
        let Some(after) = after.lines() else {
            let rings = lines.channels.iter().any(|channel| channel.ring.is_some());
            *self = History {
                past: BTreeMap::new(),
                handed_over: rings,
            };
            return;
        };
        for (before, after) in lines.channels.iter().zip(&after.channels) {
            self.follow_channel(lines, before, after, tick);
        }
    }

    fn follow_channel(&mut self, lines: &Lines, before: &Channel, after: &Channel, tick: bool) {
        if let (Some(ring), None) = (before.ring, after.ring) {
            let end = match (after.holder, tick) {
                (Some(_), _) => End::Answered,
                (None, true) => End::TimedOut,
                (None, false) => End::Cancelled,
            };
            let right = Answer {
                desk: ring.desk,
                call_type: INDIVIDUAL,
                source: ring.number,
                destination: lines.desks[usize::from(ring.desk)].number,
            };
            self.past.insert(before.code, Past { right, end });
        }
        if after.holder.is_none() {
            if let Some(past) = self.past.get_mut(&before.code) {
                if past.end == End::Answered {
                    past.end = End::Released;
                }
            }
        }
    }

    fn end(&self, channel: u8) -> Option<End> {
        self.past.get(&channel).map(|past| past.end)
    }
}

impl Coverage {
    /// Counts what an entry has to do with rings, accepted or not.
    pub fn count_rings(&mut self, lines: &Lines, bytes: &[u8], refusal: u8, after: &Set) {
        self.count_wrong_size(bytes, refusal);
        let Some(entry) = entry::read_loosely(bytes) else {
            return;
        };
        match entry {
            Entry::MobileCall { .. } => self.count_call(lines, &entry, refusal, after),
            Entry::Telegram { desk, telegram } => {
                self.count_answer(lines, desk, telegram, refusal);
                self.count_request_in_a_ring(lines, telegram, refusal);
            }
            Entry::MobileCancel { channel } => self.count_cancel(channel, refusal),
            Entry::Tick if refusal == 0 => self.count_ended_calls(lines, after),
            Entry::Handover if refusal == 0 => {
                let rings = lines.channels.iter().filter(|known| known.ring.is_some());
                let rings = rings.count();
                self.saw(rings > 0, "handover during a ring");
                self.saw(rings > 1, "handover during two rings");
            }
            Entry::Press { channel, .. }
            | Entry::Cut { channel, .. }
            | Entry::MobileOn { channel, .. }
            | Entry::MobileOff { channel } => {
                let known = lines.channels.iter().find(|known| known.code == channel);
                if let Some(known) = known {
                    self.count_in_a_ring(&entry, known, refusal);
                    self.count_after_a_ring(&entry, known, refusal);
                }
            }
            _ => {}
        }
    }

    fn count_wrong_size(&mut self, bytes: &[u8], refusal: u8) {
        let kind = bytes.get(3).copied().filter(|_| refusal == 3);
        let is = |known: u8, size: usize| kind == Some(known) && bytes.len() == size;
        self.saw(is(9, 21), "call a byte too short");
        self.saw(is(9, 23), "call a byte too long");
        self.saw(is(10, 4), "cancel a byte too short");
        self.saw(is(10, 6), "cancel a byte too long");
    }

    fn count_call(&mut self, lines: &Lines, entry: &Entry, refusal: u8, after: &Set) {
        let Entry::MobileCall {
            channel,
            base,
            number,
            called,
        } = *entry
        else {
            return;
        };
        match refusal {
            0 => {
                let after = after.lines().expect("no call ends a plan");
                self.count_ring(lines, find(after, channel));
            }
            3 => self.saw(base == 30, "call from base 30"),
            12 => self.saw(true, "call on a channel out of the plan"),
            13 => self.count_bad_numbers(&number, &called),
            17 => self.count_no_ring(lines, find(lines, channel), &called),
            _ => {}
        }
    }

    /// With the channel as it is after the call.
    fn count_ring(&mut self, lines: &Lines, channel: &Channel) {
        let (Some(ring), Some(call)) = (channel.ring, channel.call) else {
            return;
        };
        self.saw(true, SITUATIONS[usize::from(ring.desk)]);
        let several = channel.listeners(&lines.desks).count() > 1;
        self.saw(several, "ring of one among several listeners");
        let rings = |other: &Channel| other.ring.is_some_and(|other| other.desk == ring.desk);
        let holds = |other: &Channel| other.holder == Some(ring.desk);
        self.saw(
            lines.channels.iter().any(rings),
            "ring of a desk that another channel rings",
        );
        self.saw(
            lines.channels.iter().any(holds),
            "ring of a desk that holds another channel",
        );
        let alike = lines.desks.iter().any(|desk| desk.number == ring.number);
        self.saw(alike, "ring by a mobile with a desk's number");
        self.saw(call.base == 0, "ring from base 0");
        self.saw(call.base == 29, "ring from base 29");
        let again = self.history.handed_over;
        self.saw(again, "ring after a handover that ended one");
    }

    /// One of the two is bad, the other is not.
    fn count_bad_numbers(&mut self, number: &[u8], called: &[u8]) {
        let good = |number: &[u8]| plan::read_number(number).is_some();
        if good(called) {
            let letter = decimal(number).is_none();
            self.saw(letter, "call by a mobile with a letter in its number");
            self.saw(!letter, "call by a mobile with the none-number");
        }
        if good(number) {
            let letter = decimal(called).is_none();
            self.saw(letter, "call of a number with a letter");
            self.saw(!letter, "call of the none-number");
        }
    }

    /// Calls that are refused for one reason only.
    fn count_no_ring(&mut self, lines: &Lines, channel: &Channel, called: &[u8]) {
        let called = decimal(called);
        let place = lines.desks.iter().position(|d| Some(d.number) == called);
        let Some(place) = place else {
            let idle = channel.is_idle();
            return self.saw(idle, "call of a number that no desk has");
        };
        let running = lines.desks[place].phase == Phase::Running;
        let entitled = |channel: &Channel| channel.entitled.contains(place as u8);
        if channel.is_idle() {
            let elsewhere = lines.channels.iter().any(entitled);
            let here = entitled(channel);
            self.saw(here, "call of a desk that is not running");
            self.saw(running, "call of a desk that is not entitled");
            self.saw(
                running && elsewhere,
                "call of a desk that is entitled elsewhere",
            );
        } else if running && entitled(channel) {
            self.count_busy(channel);
        }
    }

    fn count_busy(&mut self, channel: &Channel) {
        let holder = channel.holder.is_some();
        let (call, arrival) = (channel.call.is_some(), channel.arrival.is_some());
        match (channel.ring, holder, call, arrival) {
            (Some(_), _, _, _) => self.saw(true, "call during a ring"),
            (None, true, false, false) => {
                self.saw(true, "call on a channel with nothing but a holder");
            }
            (None, false, true, false) => {
                self.saw(true, "call on a channel with nothing but a call");
            }
            (None, false, false, true) => {
                self.saw(true, "call on a channel with nothing but an arrival");
            }
            _ => {}
        }
    }

    fn count_answer(&mut self, lines: &Lines, desk: u8, telegram: &[u8], refusal: u8) {
        if telegram.get(10..16) != Some(b"550419") {
            return;
        }
        let Ok((
            _,
            Message::RingAnswer {
                channel,
                call_type,
                source,
                destination,
            },
        )) = telegram::read(telegram)
        else {
            let rings = lines.channels.iter().any(|channel| channel.ring.is_some());
            let bad = rings && refusal == 10;
            return self.saw(bad, "answer with a bad body during a ring");
        };
        let answer = Answer {
            desk,
            call_type,
            source,
            destination,
        };
        let mut planned = lines.channels.iter();
        let known = planned.find(|known| u32::from(known.code) == channel);
        match (refusal, known) {
            (0, Some(known)) => self.count_taken_answer(lines, known, &answer),
            (11, _) => self.saw(true, "answer by a desk that is not running"),
            (12, None) => self.saw(true, "answer on a channel out of the plan"),
            (12, Some(_)) => self.saw(true, "answer by a desk that is not entitled"),
            _ => {}
        }
    }

    fn count_taken_answer(&mut self, lines: &Lines, channel: &Channel, answer: &Answer) {
        if channel.is_answered_by(answer, &lines.desks) {
            self.saw(true, "answer that matches");
            let several = channel.listeners(&lines.desks).count() > 1;
            self.saw(several, "answer that several desks learn of");
            let last = channel.ring.is_some_and(|ring| ring.seconds == 1);
            return self.saw(last, "answer in the last second");
        }
        if let Some(ring) = channel.ring {
            let right = Answer {
                desk: ring.desk,
                call_type: INDIVIDUAL,
                source: ring.number,
                destination: lines.desks[usize::from(ring.desk)].number,
            };
            self.count_mismatch(&right, answer);
        }
        let other = lines.channels.iter();
        let mut other = other.filter(|other| other.code != channel.code);
        let elsewhere = other.any(|other| other.is_answered_by(answer, &lines.desks));
        self.saw(elsewhere, "answer of another channel's ring");
        self.saw(channel.is_idle(), "answer on an idle channel");
        let held = channel.holder.is_some_and(|holder| holder != answer.desk);
        self.saw(held, "answer while another desk holds");
        self.count_late_answer(channel.code, answer);
    }

    /// Answers that are wrong in one part only.
    fn count_mismatch(&mut self, right: &Answer, answer: &Answer) {
        let only = |wrong: Answer| *answer == wrong;
        let Answer {
            desk,
            call_type,
            source,
            destination,
        } = *answer;
        self.saw(
            only(Answer { desk, ..*right }),
            "answer by another desk than the called one",
        );
        self.saw(
            only(Answer { source, ..*right }),
            "answer with another source",
        );
        self.saw(
            only(Answer {
                destination,
                ..*right
            }),
            "answer with another destination",
        );
        let other_type = only(Answer {
            call_type,
            ..*right
        });
        self.saw(other_type && call_type == 1, "answer with type 1");
        self.saw(other_type && call_type == 2, "answer with type 2");
    }

    /// Answers that would have matched the last ring of their channel.
    fn count_late_answer(&mut self, channel: u8, answer: &Answer) {
        let past = self.history.past.get(&channel);
        let end = past.filter(|past| past.right == *answer);
        let Some(end) = end.map(|past| past.end) else {
            return;
        };
        let name = match end {
            End::Answered => "answer once more after the first",
            End::Released => "answer after the hold that it began",
            End::TimedOut => "answer after the fifteenth tick",
            End::Cancelled => "answer after the cancel",
        };
        self.saw(true, name);
    }

    fn count_cancel(&mut self, channel: u8, refusal: u8) {
        self.saw(refusal == 0, "cancel of a ring");
        if refusal == 17 {
            let end = self.history.end(channel);
            let answered = end == Some(End::Answered);
            self.saw(answered, "cancel after the answer");
            let over = matches!(end, Some(End::TimedOut | End::Cancelled));
            self.saw(over, "cancel after the end");
        }
    }

    fn count_request_in_a_ring(&mut self, lines: &Lines, telegram: &[u8], refusal: u8) {
        let Ok((_, Message::CaptureRequest { channel, order, .. })) = telegram::read(telegram)
        else {
            return;
        };
        let mut ringing = lines.channels.iter().filter(|known| known.ring.is_some());
        if refusal == 0 && ringing.any(|known| u32::from(known.code) == channel) {
            self.saw(order == 1, "capture request during a ring");
            self.saw(order == 0, "release request during a ring");
        }
    }

    fn count_in_a_ring(&mut self, entry: &Entry, channel: &Channel, refusal: u8) {
        let Some(ring) = channel.ring else { return };
        match (*entry, refusal) {
            (Entry::Press { desk, .. }, 14) => {
                let called = desk == ring.desk;
                self.saw(called, "press by the called desk during a ring");
            }
            (Entry::Cut { desk, .. }, 14) => {
                let called = desk == ring.desk;
                self.saw(called, "cut by the called desk during a ring");
            }
            (Entry::MobileOn { .. }, 15) => self.saw(true, "mobile on during a ring"),
            (Entry::MobileOff { .. }, 15) => self.saw(true, "mobile off during a ring"),
            _ => {}
        }
    }

    fn count_after_a_ring(&mut self, entry: &Entry, channel: &Channel, refusal: u8) {
        if refusal != 0 {
            return;
        }
        let rang = channel
            .call
            .is_some_and(|call| call.call_type == INDIVIDUAL);
        let arrival_rang = channel
            .arrival
            .is_some_and(|arrival| arrival.call_type == INDIVIDUAL);
        let by_answer = self.history.end(channel.code) == Some(End::Answered);
        let opens = channel.call.is_none() && by_answer;
        let name = "general call under a hold that an answer began";
        match *entry {
            Entry::Press { on: true, .. } => {
                self.saw(rang, "press on in a call that rang");
                self.saw(opens, name);
            }
            Entry::MobileOn { .. } => {
                self.saw(rang, "mobile on in a call that rang");
                self.saw(opens, name);
            }
            Entry::MobileOff { .. } if arrival_rang => {
                self.saw(rang, "mobile off in a call that rang");
                self.saw(!rang, "mobile off of a call that rang and is over");
            }
            Entry::Cut { .. } => {
                let name = "cut that leaves an arrival of a call that rang";
                self.saw(arrival_rang, name);
            }
            _ => {}
        }
    }

    fn count_ended_calls(&mut self, lines: &Lines, after: &Set) {
        let after = after.lines().map_or(&[][..], |lines| &lines.channels);
        let mut rings = 0;
        for (before, after) in lines.channels.iter().zip(after) {
            let ended = before.ring.is_some() && after.ring.is_none();
            self.saw(ended, "ring ended by the fifteenth tick");
            rings += usize::from(ended);
            let rang = before.call.is_some_and(|call| call.call_type == INDIVIDUAL);
            let over = rang && before.ring.is_none() && after.call.is_none();
            self.saw(over, "quiet end of a call that rang");
        }
        self.saw(rings > 1, "two rings ended by one tick");
    }
}
