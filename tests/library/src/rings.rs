//! A ring with buffers one byte short and just enough: 102 bytes for the
//! ring, 60 and 34 for each listener for its answer, 94 for its end.

use crate::pair::Pair;

const LARGEST: usize = 32_768;

/// An entry, the room lent with it, and its refusal and count by hand.
type Step = (Vec<u8>, usize, u8, usize);

/// Desk 0 (code 12, number 00120001) and desk 1 (code 13, number 00130001)
/// share channel 7, and both run.
const OPENING: [(&[u8], usize); 5] = [
    (
        b"\x00\x1a\x01\x07\x02\x00\x0c00120001\x00\x0d00130001\x01\x07\x03",
        42,
    ),
    (b"\x00\x21\x01\x01\x00DV0030001255041120240229120000", 21),
    (b"\x00\x21\x01\x01\x01DV0030001355041120240229120000", 21),
    (b"\x00\x15\x01\x01\x00DV0018001255042101", 0),
    (b"\x00\x15\x01\x01\x01DV0018001355042101", 0),
];

const CALL: &[u8] = b"\x00\x14\x01\x09\x07\x030099000700120001";
const CANCEL: &[u8] = b"\x00\x03\x01\x0a\x07";
const TICK: &[u8] = b"\x00\x02\x01\x06";
const ANSWER: &[u8] = b"\x00\x29\x01\x01\x00DV003800125504190073800990007800120001";
const WRONG: &[u8] = b"\x00\x29\x01\x01\x00DV003800125504190073800990008800120001";
const HANDOVER: &[u8] = b"\x00\x02\x01\x08";

fn steps() -> Vec<Step> {
    let mut steps: Vec<Step> = Vec::new();
    let mut try_both = |entry: &[u8], need: usize| {
        steps.push((entry.to_vec(), need - 1, 16, 0));
        steps.push((entry.to_vec(), need, 0, need));
    };
    try_both(CALL, 102);
    try_both(CANCEL, 94);
    try_both(CALL, 102);
    try_both(WRONG, 25);
    try_both(ANSWER, 60 + 2 * 34);
    try_both(ANSWER, 25);
    // the call of type 3, and the 550651 to both
    try_both(HANDOVER, 51 + 2 * 34);
    steps
}

/// A ring that is not answered: 17 comes before 16, and a tick refused with 16
/// is no tick.
fn missed() -> Vec<Step> {
    let mut steps: Vec<Step> = vec![
        (CANCEL.to_vec(), 0, 17, 0),
        (CALL.to_vec(), 102, 0, 102),
        (CALL.to_vec(), 0, 17, 0),
    ];
    steps.extend((0..14).map(|_| (TICK.to_vec(), 0, 0, 0)));
    steps.push((TICK.to_vec(), 93, 16, 0));
    steps.push((TICK.to_vec(), 94, 0, 94));
    steps.push((TICK.to_vec(), 0, 0, 0));
    steps.push((CALL.to_vec(), 102, 0, 102));
    steps.push((HANDOVER.to_vec(), 93, 16, 0));
    steps.push((HANDOVER.to_vec(), 94, 0, 94));
    steps
}

pub fn buffers() -> Result<String, String> {
    let mut tried = 0;
    for feed in [steps(), missed()] {
        let mut pair = Pair::new();
        for (entry, count) in OPENING {
            let reply = pair.step(entry, LARGEST)?;
            if (reply.refusal, reply.count) != (0, count) {
                return Err(format!("the opening: {reply:?}"));
            }
        }
        for (entry, room, refusal, count) in feed {
            let reply = pair.step(&entry, room)?;
            if (reply.refusal, reply.count) != (refusal, count) {
                return Err(format!(
                    "entry {tried} with {room} bytes: {reply:?} where {refusal} and {count} is expected"
                ));
            }
            tried += 1;
        }
    }
    Ok(format!("{tried} entries, a byte short and just enough"))
}
