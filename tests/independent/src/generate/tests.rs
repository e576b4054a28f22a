//! Seeds give the same feeds, and the feeds are what their shapes say.

use super::*;
use crate::replay::entries;
use crate::set::entry::split_first;

/// The refusal of each entry, one after another.
fn refusals(feed: &[u8]) -> Vec<u8> {
    let mut set = Set::new();
    let mut buffer = vec![0; BUFFER];
    entries(feed)
        .map(|entry| set.step(entry, &mut buffer).refusal)
        .collect()
}

fn whole_entries(mut feed: &[u8]) -> usize {
    let mut count = 0;
    while let Some((_, rest)) = split_first(feed) {
        feed = rest;
        count += 1;
    }
    count
}

#[test]
fn seeds_give_the_same_feeds() {
    assert_eq!(feed(7, 300), feed(7, 300));
    assert_ne!(feed(7, 300), feed(8, 300));
    assert!(feed(7, 0).is_empty());
}

#[test]
fn only_the_last_entry_ends_a_feed() {
    for seed in 0..300 {
        let refusals = refusals(&feed(seed, 200));
        assert_eq!(refusals.len(), 200, "{seed}");
        assert!(!refusals[..199].contains(&1), "{seed}");
    }
}

#[test]
fn most_entries_are_accepted() {
    let refusals: Vec<u8> = (0..100)
        .flat_map(|seed| refusals(&feed(seed, 500)))
        .collect();
    let accepted = refusals.iter().filter(|&&refusal| refusal == 0).count();
    let share = 100 * accepted / refusals.len();
    assert!((70..=90).contains(&share), "{share}");
}

#[test]
fn shapes() {
    for name in shapes::NAMES {
        let on_one_desk = shapes::feed(&format!("{name}-1desk"), 1, 3000).unwrap();
        let feed = shapes::feed(name, 1, 3000).unwrap();
        assert_eq!(feed, shapes::feed(name, 1, 3000).unwrap());
        assert_ne!(feed, on_one_desk);
        for feed in [feed, on_one_desk] {
            assert_eq!(whole_entries(&feed), 3000);
            let refusals = refusals(&feed);
            assert_eq!(refusals.len(), 3000);
            assert!(!refusals.contains(&1));
            // The plan, the desks, and what is used before.
            let accepted = refusals[300..]
                .iter()
                .filter(|&&refusal| refusal == 0)
                .count();
            match name {
                "refused" => assert_eq!(accepted, 0),
                "mixed1" | "mixed4" | "mixed32" => assert!(accepted > 2400),
                _ => assert_eq!(accepted, 2700, "{name}"),
            }
        }
    }
    for name in ["other", "-1desk", "mixed4-1desk-1desk"] {
        assert!(shapes::feed(name, 1, 10).is_none(), "{name}");
    }
}

#[test]
fn channels_and_desks_of_mixed_feeds() {
    for (name, channels, desks) in [
        ("mixed1", 1, 4),
        ("mixed4", 4, 4),
        ("mixed32", 32, 4),
        ("mixed1-1desk", 1, 1),
        ("mixed4-1desk", 4, 1),
        ("mixed32-1desk", 32, 1),
    ] {
        let mut set = Set::new();
        for entry in entries(&shapes::feed(name, 1, 10).unwrap()) {
            set.step(entry, &mut vec![0; BUFFER]);
        }
        let lines = set.lines().unwrap();
        assert_eq!(lines.channels.len(), channels);
        assert_eq!(Desks::running(&lines.desks).count(), desks);
    }
}

#[test]
fn held_channels_stay_held() {
    let feed = shapes::feed("ticks-held", 1, 5000).unwrap();
    let mut set = Set::new();
    for (place, entry) in entries(&feed).enumerate() {
        set.step(entry, &mut vec![0; BUFFER]);
        if place > 110 {
            let channels = &set.lines().unwrap().channels;
            assert!(channels.iter().all(|channel| channel.holder.is_some()));
        }
    }
}

#[test]
fn bad_plans_are_bad() {
    let mut random = Random::new(3);
    for _ in 0..2000 {
        let bad = plans::bad(&mut random);
        assert_eq!(
            Set::new().step(&bad, &mut [0; BUFFER]).refusal,
            6,
            "{bad:?}"
        );
        let good = plans::good(&mut random).entry();
        assert_eq!(Set::new().step(&good, &mut [0; BUFFER]).refusal, 0);
    }
}
