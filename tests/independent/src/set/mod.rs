//! The line set: all desks and channels of a case, stepped entry by entry.

pub mod channel;
pub mod desks;
pub mod entry;
mod judge;
pub mod plan;
pub mod records;
#[cfg(test)]
mod tests;

use crate::refusal::Refusal;
use crate::telegram::Message;
use channel::{Channel, Event};
use desks::{Desks, Phase};
use entry::Entry;
use judge::Action;
use plan::Lines;
use records::{Measure, Records, Writer};

/// The refusal number, 0 if accepted, and the bytes written.
#[derive(Clone, Copy, Debug, PartialEq, Eq)]
pub struct Reply {
    pub refusal: u8,
    pub count: usize,
}

#[derive(Clone, Debug, Default, PartialEq, Eq)]
pub struct Set {
    /// Nothing before the first plan and after a handover.
    lines: Option<Lines>,
}

impl Set {
    pub fn new() -> Self {
        Set::default()
    }

    pub fn lines(&self) -> Option<&Lines> {
        self.lines.as_ref()
    }

    /// Takes one entry and writes what is sent to the front of the buffer.
    /// A refused entry changes neither the set nor the buffer.
    pub fn step(&mut self, entry: &[u8], buffer: &mut [u8]) -> Reply {
        match self.try_step(entry, buffer) {
            Ok(count) => Reply { refusal: 0, count },
            Err(refusal) => Reply {
                refusal: refusal.number(),
                count: 0,
            },
        }
    }

    fn try_step(&mut self, bytes: &[u8], buffer: &mut [u8]) -> Result<usize, Refusal> {
        let entry = entry::read(bytes)?;
        let Some(lines) = &mut self.lines else {
            let Entry::Plan(plan) = entry else {
                return Err(Refusal::NoPlan);
            };
            let lines = plan::read(plan).ok_or(Refusal::Plan)?;
            let count = lines.announce(buffer)?;
            self.lines = Some(lines);
            return Ok(count);
        };
        let action = lines.judge(entry)?;
        let count = lines.take(action, buffer)?;
        if action == Action::Handover {
            self.lines = None;
        }
        Ok(count)
    }
}

impl Lines {
    /// Asks each desk of a new plan for the time.
    fn announce(&self, buffer: &mut [u8]) -> Result<usize, Refusal> {
        let all = Desks((1 << self.desks.len()) - 1);
        let mut measure = Measure::default();
        measure.telegram(all, &Message::TimeRequest);
        if measure.bytes > buffer.len() {
            return Err(Refusal::Space);
        }
        let mut writer = Writer::new(buffer, &self.desks);
        writer.telegram(all, &Message::TimeRequest);
        Ok(writer.bytes)
    }

    fn take(&mut self, action: Action, buffer: &mut [u8]) -> Result<usize, Refusal> {
        if self.measure(action) > buffer.len() {
            return Err(Refusal::Space);
        }
        let mut writer = Writer::new(buffer, &self.desks);
        match action {
            Action::TimeNotice { desk } => {
                writer.telegram(Desks::only(desk), &Message::OperationRequest);
                self.desks[usize::from(desk)].phase = Phase::AwaitsOperation;
            }
            Action::OperationAnswer { desk, runs } => {
                if runs {
                    self.desks[usize::from(desk)].phase = Phase::Running;
                }
            }
            Action::Channel { place, event } => {
                self.channels[place].happen(event, &self.desks, &mut writer);
            }
            Action::Tick => self.happen_to_all(Event::Tick, &mut writer),
            Action::Handover => self.happen_to_all(Event::Handover, &mut writer),
        }
        Ok(writer.bytes)
    }

    fn happen_to_all(&mut self, event: Event, out: &mut impl Records) {
        for channel in &mut self.channels {
            channel.happen(event, &self.desks, out);
        }
    }

    /// The bytes of all that the action sends. The rules are tried on copies
    /// of the channels.
    fn measure(&self, action: Action) -> usize {
        let mut measure = Measure::default();
        let mut try_on = |mut channel: Channel, event| {
            channel.happen(event, &self.desks, &mut measure);
        };
        let channels = self.channels.iter();
        match action {
            Action::TimeNotice { desk } => {
                measure.telegram(Desks::only(desk), &Message::OperationRequest);
            }
            Action::OperationAnswer { .. } => {}
            Action::Channel { place, event } => try_on(self.channels[place], event),
            Action::Tick => channels
                .filter(|channel| channel.is_due())
                .for_each(|channel| try_on(*channel, Event::Tick)),
            Action::Handover => channels.for_each(|channel| try_on(*channel, Event::Handover)),
        }
        measure.bytes
    }
}
