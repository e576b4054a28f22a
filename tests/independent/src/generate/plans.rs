//! Plans, good and bad.

use crate::random::Random;
use crate::set::entry::Entry;

/// A plan that need not be a good one.
#[derive(Clone)]
pub struct Draft {
    pub desks: Vec<(u16, [u8; 8])>,
    pub channels: Vec<(u8, u8)>,
}

impl Draft {
    pub fn bytes(&self) -> Vec<u8> {
        let mut plan = vec![self.desks.len() as u8];
        for (code, number) in &self.desks {
            plan.extend_from_slice(&code.to_be_bytes());
            plan.extend_from_slice(number);
        }
        plan.push(self.channels.len() as u8);
        for &(code, entitled) in &self.channels {
            plan.extend_from_slice(&[code, entitled]);
        }
        plan
    }

    pub fn entry(&self) -> Vec<u8> {
        Entry::Plan(&self.bytes()).bytes()
    }
}

/// A plan in which every desk is entitled to every channel.
pub fn full(desk_count: usize, channel_count: usize) -> Draft {
    let all = (1 << desk_count) - 1;
    let desk = |place: usize| {
        let number = format!("00{:02}0001", 12 + place);
        (12 + place as u16, digits(&number))
    };
    Draft {
        desks: (0..desk_count).map(desk).collect(),
        channels: (0..channel_count)
            .map(|place| (3 * place as u8, all))
            .collect(),
    }
}

/// Any good plan, the smallest and the largest among them.
pub fn good(random: &mut Random) -> Draft {
    let desk_count = random.pick(&[1, 2, 2, 3, 3, 4, 4, 4]);
    let channel_count = match random.below(10) {
        0..=1 => 1,
        2..=6 => random.within(2, 4),
        7..=8 => random.within(5, 31),
        _ => 32,
    };
    let mut draft = Draft {
        desks: Vec::new(),
        channels: Vec::new(),
    };
    let shared_code = random_code(random);
    for _ in 0..desk_count {
        let code = match random.below(3) {
            0 => shared_code,
            _ => random_code(random),
        };
        draft.desks.push((code, new_number(&draft, random)));
    }
    for code in rising_codes(channel_count, random) {
        let all = (1 << desk_count) - 1;
        let entitled = match random.below(3) {
            0 => all,
            _ => random.within(1, all),
        };
        draft.channels.push((code, entitled as u8));
    }
    draft
}

fn random_code(random: &mut Random) -> u16 {
    match random.below(8) {
        0 => 0,
        1 => 1023,
        _ => random.within(0, 1023) as u16,
    }
}

fn new_number(draft: &Draft, random: &mut Random) -> [u8; 8] {
    loop {
        let value = match random.below(12) {
            0 => 1,
            1 => 99_999_999,
            _ => random.within(1, 99_999_999),
        };
        let number = digits(&format!("{value:08}"));
        if draft.desks.iter().all(|desk| desk.1 != number) {
            return number;
        }
    }
}

/// Strictly rising, out of 0 to 99, both often among them.
fn rising_codes(count: usize, random: &mut Random) -> Vec<u8> {
    let mut codes: Vec<u8> = (0..100).collect();
    while codes.len() > count {
        let place = random.below(codes.len());
        let edge = matches!(codes[place], 0 | 99);
        if !edge || random.below(3) == 0 {
            codes.remove(place);
        }
    }
    codes
}

/// A plan that breaks one rule, mostly by as little as possible.
pub fn bad(random: &mut Random) -> Vec<u8> {
    loop {
        let mut draft = good(random);
        let plan = match random.below(4) {
            0 => wrong_size(&draft, random),
            1 => wrong_count(&mut draft, random),
            2 => wrong_desk(&mut draft, random),
            _ => wrong_channel(&mut draft, random),
        };
        if let Some(plan) = plan {
            return Entry::Plan(&plan).bytes();
        }
    }
}

fn wrong_size(draft: &Draft, random: &mut Random) -> Option<Vec<u8>> {
    let mut plan = draft.bytes();
    match random.below(5) {
        0 => plan.push(random.byte()),
        1 => plan.truncate(plan.len() - 1),
        2 => plan.truncate(random.below(plan.len())),
        3 => plan.clear(),
        _ => {
            let count = 1 + 10 * draft.desks.len();
            plan[count] = plan[count].wrapping_add(random.pick(&[1, 255, 100]));
        }
    }
    Some(plan)
}

fn wrong_count(draft: &mut Draft, random: &mut Random) -> Option<Vec<u8>> {
    match random.below(4) {
        0 => draft.desks.clear(),
        1 => {
            while draft.desks.len() < 5 {
                let number = new_number(draft, random);
                draft.desks.push((random_code(random), number));
            }
        }
        2 => draft.channels.clear(),
        _ => {
            let codes = rising_codes(33, random);
            draft.channels = codes.iter().map(|&code| (code, 1)).collect();
        }
    }
    Some(draft.bytes())
}

fn wrong_desk(draft: &mut Draft, random: &mut Random) -> Option<Vec<u8>> {
    let place = random.below(draft.desks.len());
    let other = random.below(draft.desks.len());
    let (code, number) = draft.desks[place];
    draft.desks[place] = match random.below(5) {
        0 => (1024, number),
        1 => (random.within(1024, 65_535) as u16, number),
        2 => (code, digits("00000000")),
        3 => (code, damaged(number, random)),
        // Equal numbers, under equal codes or not.
        _ if place != other => (code, draft.desks[other].1),
        _ => return None,
    };
    Some(draft.bytes())
}

fn wrong_channel(draft: &mut Draft, random: &mut Random) -> Option<Vec<u8>> {
    let place = random.below(draft.channels.len());
    let last = draft.channels.len() - 1;
    match random.below(6) {
        0 => draft.channels[last].0 = 100,
        1 => draft.channels[last].0 = random.within(100, 255) as u8,
        2 => draft.channels[place].1 = 0,
        3 => draft.channels[place].1 |= 1 << random.within(draft.desks.len(), 7),
        4 if place < last => draft.channels.swap(place, last),
        5 if place < last => draft.channels[place + 1].0 = draft.channels[place].0,
        _ => return None,
    }
    Some(draft.bytes())
}

/// The number with one byte that is no digit.
pub fn damaged(mut number: [u8; 8], random: &mut Random) -> [u8; 8] {
    number[random.below(8)] = random.pick(b"/:* -x\0\xff\xb0");
    number
}

pub fn digits(number: &str) -> [u8; 8] {
    number.as_bytes().try_into().expect("a number has 8 digits")
}
