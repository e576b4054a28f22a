//! Feeds that stand in a directory as text, some with the output due.

use super::difference;
use super::program::Program;
use super::Group;
use crate::{feed, replay};
use std::fs;
use std::io;
use std::path::{Path, PathBuf};

pub fn compare(directory: &Path, program: &mut Program) -> Group {
    let mut group = Group::new(format!("feeds in {}", directory.display()));
    let files = match files(directory) {
        Ok(files) => files,
        Err(error) => {
            group.check("directory", Some(error.to_string()));
            return group;
        }
    };
    let mut stored_count = 0;
    for file in &files {
        let name = file.file_name().unwrap_or_default().to_string_lossy();
        match file.extension().and_then(|extension| extension.to_str()) {
            Some("feed") => group.check(&name, problem(file, program)),
            Some("expected") => {
                stored_count += 1;
                if !files.contains(&file.with_extension("feed")) {
                    group.check(&name, Some("there is no feed for it".to_string()));
                }
            }
            _ => {}
        }
    }
    group
        .notes
        .push(format!("{stored_count} with a stored output"));
    group
}

fn files(directory: &Path) -> io::Result<Vec<PathBuf>> {
    let mut files = Vec::new();
    for file in fs::read_dir(directory)? {
        files.push(file?.path());
    }
    files.sort();
    Ok(files)
}

fn problem(file: &Path, program: &mut Program) -> Option<String> {
    let text = match fs::read(file) {
        Ok(text) => text,
        Err(error) => return Some(error.to_string()),
    };
    let feed = match feed::to_binary(&text) {
        Ok(feed) => feed,
        Err(why) => return Some(why),
    };
    let own = replay::output(&feed);
    own_problem(file, &own).or_else(|| program.problem(feed, &own))
}

/// Holds the own output against the stored one, if there is one.
fn own_problem(file: &Path, own: &[u8]) -> Option<String> {
    let stored = file.with_extension("expected");
    if !stored.exists() {
        return None;
    }
    match fs::read(&stored) {
        Ok(stored) => difference::describe_to("the stored output", own, &stored),
        Err(error) => Some(error.to_string()),
    }
}
