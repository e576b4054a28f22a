//! What is not about feeds: the memory of a set, pointers, entries of no
//! meaning, sets of no meaning, two sets, the stack.

use crate::feeds;
use crate::lent::Lent;
use crate::library;
use crate::pair::Pair;
use independent::random::Random;

/// What include/imjauska.h asks for.
const STACK: usize = 64 * 1024;

const LARGEST: usize = 32_768;

type Verdict = Result<String, String>;

/// A new set is the same whatever lay there, so that every byte is written,
/// the last one too, and nothing beside it.
pub fn layout() -> Verdict {
    let (size, align) = (library::set_size(), library::set_align());
    if align != 4 {
        return Err(format!(
            "the sets here lie at multiples of 4, not of {align}"
        ));
    }
    let sets = [0x00, 0xff, 0xa5].map(library::new_set);
    if sets.iter().any(|set| set.bytes() != sets[0].bytes()) {
        return Err("a byte of a new set is as it was before".into());
    }
    if !sets.iter().all(Lent::is_guarded) {
        return Err("a new set is larger than its size".into());
    }
    Ok(format!(
        "{size} bytes at a multiple of {align}, every one written"
    ))
}

/// 01: an empty entry is refused with 1; a tick of a planned set at rest sends
/// nothing and needs no buffer.
pub fn null_pointers() -> Verdict {
    let mut set = library::new_set(0);
    let refused = library::step_null(&mut set).map(|reply| (reply.refusal, reply.count));
    let mut plan = vec![0, 16, 1, 7, 1, 0, 12];
    plan.extend_from_slice(b"00120001");
    plan.extend_from_slice(&[1, 7, 1]);
    let short = library::step_no_buffer(&mut set, &plan).map(|reply| (reply.refusal, reply.count));
    let mut records = [0; 21];
    let planned =
        library::step(&mut set, &plan, &mut records).map(|reply| (reply.refusal, reply.count));
    let ticked =
        library::step_no_buffer(&mut set, &[0, 2, 1, 6]).map(|reply| (reply.refusal, reply.count));
    let got = [refused, short, planned, ticked];
    let expected = [Some((1, 0)), Some((16, 0)), Some((0, 21)), Some((0, 0))];
    if got != expected || !set.is_guarded() {
        return Err(format!("{got:?} where {expected:?} is expected"));
    }
    Ok("NULL with length 0 is an empty entry, or no buffer".into())
}

/// What include/imjauska.h says of saving: how a set begins, which bytes are of
/// this layout, and that no entry changes how a set begins.
pub fn saved_sets() -> Verdict {
    let new = library::new_set(0xff);
    if !new.bytes().starts_with(b"IMJ\x02") {
        return Err(format!("a new set begins with {:?}", &new.bytes()[..4]));
    }
    let mut pair = Pair::new();
    for entry in feeds::generated(9, 1_000) {
        pair.step(&entry, LARGEST)?;
        if library::is_current(pair.saved()) != 1 {
            return Err("a set that was stepped is not current".into());
        }
    }
    for (name, saved) in not_current(new.bytes()) {
        if library::is_current(&saved) != 0 {
            return Err(format!("{name} is current"));
        }
    }
    let mut foreign = Lent::new(new.bytes());
    foreign.bytes_mut()[3] = 9;
    let mut buffer = vec![0; LARGEST];
    let accepted = feeds::generated(9, 1_000)
        .iter()
        .filter_map(|entry| library::step(&mut foreign, entry, &mut buffer))
        .filter(|reply| reply.refusal == 0)
        .count();
    if accepted == 0 || !foreign.bytes().starts_with(b"IMJ\x09") {
        return Err("an entry changed how a set begins".into());
    }
    Ok("a set stays current, and nothing else becomes so".into())
}

/// Bytes near those of a set, none of which are one of this layout.
fn not_current(set: &[u8]) -> Vec<(String, Vec<u8>)> {
    let longer = [set, &[0]].concat();
    let mut saved = vec![
        ("nothing".to_string(), Vec::new()),
        (
            "a set without its last byte".into(),
            set[..set.len() - 1].into(),
        ),
        ("a set with a byte more".into(), longer),
    ];
    for place in 0..4 {
        for other in (0..=255).filter(|&byte| byte != set[place]) {
            let mut bytes = set.to_vec();
            bytes[place] = other;
            saved.push((format!("a set with {other} at place {place}"), bytes));
        }
    }
    saved
}

/// Entries of random bytes, with a good start or none, up to past the longest.
pub fn random_entries() -> Verdict {
    let mut random = Random::new(47);
    let mut pair = Pair::new();
    for entry in feeds::generated(5, 40) {
        pair.step(&entry, LARGEST)?;
    }
    for number in 0..20_000 {
        let length = if number % 100 == 0 {
            random.below(12_100)
        } else {
            random.below(60)
        };
        let mut entry = random.bytes(length);
        if entry.len() >= 4 && random.below(4) > 0 {
            let counted = (entry.len() - 2) as u16;
            entry[..2].copy_from_slice(&counted.to_be_bytes());
            entry[2] = 1;
            entry[3] = random.below(12) as u8;
        }
        let room = random.below(100);
        pair.step(&entry, room)
            .map_err(|fault| format!("entry {number}: {fault}"))?;
    }
    Ok(format!(
        "{} accepted, {} refused",
        pair.seen.accepted, pair.seen.refused
    ))
}

/// Whatever a set's memory holds, a step ends and writes nothing but what is
/// lent, and of the buffer no more than it counts; a refused one leaves it all.
pub fn random_sets() -> Verdict {
    let mut random = Random::new(11);
    let entries = feeds::generated(3, 2_000);
    for (number, entry) in entries.iter().cycle().take(40_000).enumerate() {
        let before = any_set(&mut random);
        let mut set = Lent::new(&before);
        let room = if number % 2 == 0 {
            LARGEST / 8
        } else {
            random.below(200)
        };
        let mut buffer = Lent::new(&vec![0xee; room]);
        let Some(reply) = library::step(&mut set, entry, buffer.bytes_mut()) else {
            return Err(format!(
                "step {number}: something beside the count was written"
            ));
        };
        if reply.refusal != 0 && (reply.count != 0 || set.bytes() != before) {
            return Err(format!("step {number}: a refused entry changed the set"));
        }
        if reply.count > room
            || buffer.bytes()[reply.count..]
                .iter()
                .any(|&byte| byte != 0xee)
        {
            return Err(format!(
                "step {number}: bytes behind the count were written"
            ));
        }
        if !set.is_guarded() || !buffer.is_guarded() {
            return Err(format!(
                "step {number}: something beside the set or the buffer was written"
            ));
        }
    }
    Ok("40000 steps, each in a set of random bytes".into())
}

/// Bytes that are often small, so that flags are set, and counts and places are
/// near those of sets.
fn any_set(random: &mut Random) -> Vec<u8> {
    let small = random.below(20);
    let byte = |_| {
        if random.below(20) < small {
            random.below(4) as u8
        } else {
            random.byte()
        }
    };
    (0..library::set_size()).map(byte).collect()
}

/// Two sets in turn, and one of them copied to another place in between: a set
/// is its bytes and nothing else.
pub fn two_sets() -> Verdict {
    let mut pairs = [Pair::new(), Pair::new()];
    let feeds = [feeds::generated(21, 5_000), feeds::generated(22, 5_000)];
    for number in 0..5_000 {
        for (pair, feed) in pairs.iter_mut().zip(&feeds) {
            pair.step(&feed[number], LARGEST)
                .map_err(|fault| format!("entry {number}: {fault}"))?;
        }
        if number % 100 == 0 {
            pairs[0].move_set();
        }
    }
    Ok("10000 entries in turn".into())
}

/// A long feed in a thread with as much stack as the header asks for.
pub fn small_stack() -> Verdict {
    let entries = feeds::generated(1, 100_000);
    let mut set = library::new_set(0);
    let mut buffer = vec![0; LARGEST];
    let step_all = move || {
        entries
            .iter()
            .filter(|entry| library::step(&mut set, entry, &mut buffer).is_some())
            .count()
    };
    let steps = std::thread::Builder::new()
        .stack_size(STACK)
        .spawn(step_all);
    match steps.map(|thread| thread.join()) {
        Ok(Ok(100_000)) => Ok(format!("100000 entries with {STACK} bytes of stack")),
        other => Err(format!("{other:?}")),
    }
}

/// One long feed, with the replay program's buffer.
pub fn long_feed() -> Verdict {
    let mut pair = Pair::new();
    for (number, entry) in feeds::generated(2, 100_000).iter().enumerate() {
        pair.step(entry, LARGEST)
            .map_err(|fault| format!("entry {number}: {fault}"))?;
    }
    Ok(format!(
        "{} accepted, {} refused, {} bytes",
        pair.seen.accepted, pair.seen.refused, pair.seen.bytes
    ))
}
