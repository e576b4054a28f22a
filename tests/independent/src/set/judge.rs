//! What an entry asks of a set with a plan, or why it is refused: 5, 7 to 15
//! and 17, in order.

use super::channel::{Answer, Channel, Event};
use super::desks::{Desk, Phase};
use super::entry::Entry;
use super::plan::{self, Lines};
use crate::refusal::Refusal;
use crate::telegram::{self, Message};

/// What an accepted entry does. Desks and channels go by their places.
#[derive(Clone, Copy, Debug, PartialEq, Eq)]
pub enum Action {
    TimeNotice { desk: u8 },
    OperationAnswer { desk: u8, runs: bool },
    Channel { place: usize, event: Event },
    Tick,
    Handover,
}

impl Lines {
    pub fn judge(&self, entry: Entry) -> Result<Action, Refusal> {
        match entry {
            Entry::Telegram { desk, telegram } => self.judge_telegram(desk, telegram),
            Entry::Press { desk, channel, on } => self.judge_press(desk, channel, on),
            Entry::Cut { desk, channel } => self.judge_cut(desk, channel),
            Entry::MobileOn {
                channel,
                base,
                number,
            } => self.judge_mobile_on(channel, base, &number),
            Entry::MobileOff { channel } => self.judge_mobile_off(channel),
            Entry::Tick => Ok(Action::Tick),
            Entry::Plan(_) => Err(Refusal::PlanPresent),
            Entry::Handover => Ok(Action::Handover),
            Entry::MobileCall {
                channel,
                base,
                number,
                called,
            } => self.judge_mobile_call(channel, base, &number, &called),
            Entry::MobileCancel { channel } => self.judge_mobile_cancel(channel),
        }
    }

    fn judge_telegram(&self, place: u8, telegram: &[u8]) -> Result<Action, Refusal> {
        let desk = self.desk(place)?;
        if telegram::read_code(telegram)? != desk.code {
            return Err(Refusal::Header);
        }
        let identifier = telegram::read_identifier(telegram)?;
        let needed = match identifier {
            550411 => Phase::AwaitsTime,
            550421 => Phase::AwaitsOperation,
            550419 | 550600 => Phase::Running,
            _ => return Err(Refusal::Identifier),
        };
        let message = telegram::read_body(identifier, &telegram[telegram::HEADER..])?;
        in_phase(desk, needed)?;
        self.judge_message(place, message)
    }

    /// A message of a desk in the phase for it.
    fn judge_message(&self, desk: u8, message: Message) -> Result<Action, Refusal> {
        match message {
            Message::OperationAnswer { state, .. } => Ok(Action::OperationAnswer {
                desk,
                runs: state == 1,
            }),
            Message::CaptureRequest {
                channel,
                number,
                order,
            } => self.judge_request(desk, channel, number, order),
            Message::RingAnswer {
                channel,
                call_type,
                source,
                destination,
            } => {
                let (place, _) = self.named_channel(desk, channel)?;
                let event = Event::Answer(Answer {
                    desk,
                    call_type,
                    source,
                    destination,
                });
                Ok(Action::Channel { place, event })
            }
            _ => Ok(Action::TimeNotice { desk }),
        }
    }

    fn judge_request(
        &self,
        desk: u8,
        channel: u32,
        number: u32,
        order: u32,
    ) -> Result<Action, Refusal> {
        let (place, _) = self.named_channel(desk, channel)?;
        if number != self.desks[usize::from(desk)].number {
            return Err(Refusal::Number);
        }
        let event = match order {
            1 => Event::Capture { desk },
            _ => Event::Release { desk },
        };
        Ok(Action::Channel { place, event })
    }

    fn judge_press(&self, desk: u8, channel: u8, on: bool) -> Result<Action, Refusal> {
        let (place, channel) = self.held_channel(desk, channel)?;
        if channel.pressed == on {
            return Err(Refusal::NoChange);
        }
        let event = if on { Event::PressOn } else { Event::PressOff };
        Ok(Action::Channel { place, event })
    }

    fn judge_cut(&self, desk: u8, channel: u8) -> Result<Action, Refusal> {
        let (place, _) = self.held_channel(desk, channel)?;
        let event = Event::Cut;
        Ok(Action::Channel { place, event })
    }

    fn judge_mobile_on(&self, code: u8, base: u8, number: &[u8]) -> Result<Action, Refusal> {
        let (place, channel) = self.channel(code)?;
        let number = plan::read_number(number).ok_or(Refusal::Number)?;
        if channel.arrival.is_some() || channel.ring.is_some() {
            return Err(Refusal::NoChange);
        }
        let event = Event::MobileOn { base, number };
        Ok(Action::Channel { place, event })
    }

    fn judge_mobile_off(&self, code: u8) -> Result<Action, Refusal> {
        let (place, channel) = self.channel(code)?;
        if channel.arrival.is_none() {
            return Err(Refusal::NoChange);
        }
        let event = Event::MobileOff;
        Ok(Action::Channel { place, event })
    }

    fn judge_mobile_call(
        &self,
        code: u8,
        base: u8,
        number: &[u8],
        called: &[u8],
    ) -> Result<Action, Refusal> {
        let (place, channel) = self.channel(code)?;
        let number = plan::read_number(number).ok_or(Refusal::Number)?;
        let called = plan::read_number(called).ok_or(Refusal::Number)?;
        let mut listeners = channel.listeners(&self.desks).iter();
        let desk = listeners
            .find(|&desk| self.desks[usize::from(desk)].number == called)
            .filter(|_| channel.is_idle())
            .ok_or(Refusal::Ring)?;
        let event = Event::MobileCall { base, number, desk };
        Ok(Action::Channel { place, event })
    }

    fn judge_mobile_cancel(&self, code: u8) -> Result<Action, Refusal> {
        let (place, channel) = self.channel(code)?;
        if channel.ring.is_none() {
            return Err(Refusal::Ring);
        }
        let event = Event::MobileCancel;
        Ok(Action::Channel { place, event })
    }

    fn desk(&self, place: u8) -> Result<&Desk, Refusal> {
        self.desks.get(usize::from(place)).ok_or(Refusal::Desk)
    }

    fn channel(&self, code: u8) -> Result<(usize, &Channel), Refusal> {
        let place = self.channels.iter().position(|known| known.code == code);
        let place = place.ok_or(Refusal::Channel)?;
        Ok((place, &self.channels[place]))
    }

    fn entitled_channel(&self, desk: u8, code: u8) -> Result<(usize, &Channel), Refusal> {
        self.channel(code)
            .ok()
            .filter(|(_, channel)| channel.entitled.contains(desk))
            .ok_or(Refusal::Channel)
    }

    /// The channel that a desk's telegram names.
    fn named_channel(&self, desk: u8, channel: u32) -> Result<(usize, &Channel), Refusal> {
        let code = u8::try_from(channel).map_err(|_| Refusal::Channel)?;
        self.entitled_channel(desk, code)
    }

    /// For press and cut, which need a running desk that holds the channel.
    fn held_channel(&self, desk: u8, code: u8) -> Result<(usize, &Channel), Refusal> {
        in_phase(self.desk(desk)?, Phase::Running)?;
        let (place, channel) = self.entitled_channel(desk, code)?;
        if channel.holder != Some(desk) {
            return Err(Refusal::NotHolder);
        }
        Ok((place, channel))
    }
}

fn in_phase(desk: &Desk, needed: Phase) -> Result<(), Refusal> {
    if desk.phase == needed {
        Ok(())
    } else {
        Err(Refusal::Phase)
    }
}
