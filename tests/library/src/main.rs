//! Links the library for controllers and compares it with the independent
//! program: every answer, every byte of the buffer, and that nothing else is
//! written. Each line is a group, and the last one counts them.

mod feeds;
mod lent;
mod library;
mod pair;
mod places;
mod rings;

use independent::generate::shapes;
use std::process::ExitCode;

fn main() -> ExitCode {
    let mut groups = vec![
        ("layout".to_string(), places::layout()),
        ("null pointers".to_string(), places::null_pointers()),
        ("saved sets".to_string(), places::saved_sets()),
        ("rings".to_string(), rings::buffers()),
    ];
    let all_shapes = std::iter::once(None).chain(shapes::NAMES.into_iter().map(Some));
    for shape in all_shapes {
        let entries = feeds::of_shape(shape);
        for (room, name) in feeds::ROOMS {
            let verdict = feeds::compare(&entries, room).map(|seen| {
                let (accepted, refused, bytes) = (seen.accepted, seen.refused, seen.bytes);
                format!("{accepted} accepted, {refused} refused, {bytes} bytes")
            });
            groups.push((format!("{}, {name}", shape.unwrap_or("generated")), verdict));
        }
    }
    groups.push(("long feed".to_string(), places::long_feed()));
    groups.push(("random entries".to_string(), places::random_entries()));
    groups.push(("random sets".to_string(), places::random_sets()));
    groups.push(("two sets".to_string(), places::two_sets()));
    groups.push(("small stack".to_string(), places::small_stack()));
    report(&groups)
}

fn report(groups: &[(String, Result<String, String>)]) -> ExitCode {
    let mut failed = 0;
    for (name, verdict) in groups {
        match verdict {
            Ok(what) => println!("{name}: {what}"),
            Err(fault) => {
                println!("{name}: FAILED: {fault}");
                failed += 1;
            }
        }
    }
    println!("{} passed, {failed} failed", groups.len() - failed);
    if failed == 0 {
        ExitCode::SUCCESS
    } else {
        ExitCode::FAILURE
    }
}
