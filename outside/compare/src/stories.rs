//! The stories of outside/bench-stories: inputs of a bench with the outputs
//! that were read beside the documents.

use crate::bench_compare::first_difference;
use crate::feed::{Feed, Program};
use std::fs;
use std::path::{Path, PathBuf};

const DIRECTORY: &str = concat!(env!("CARGO_MANIFEST_DIR"), "/../bench-stories");

pub struct Story {
    pub name: String,
    pub events: Vec<u8>,
    pub expected: Vec<u8>,
}

/// All stories, by name. A file without its companion is an error.
pub fn stories() -> Result<Vec<Story>, String> {
    let read = |path: &Path| fs::read(path).map_err(|e| format!("{}: {e}", path.display()));
    let mut paths: Vec<PathBuf> = Vec::new();
    for entry in fs::read_dir(DIRECTORY).map_err(|e| e.to_string())? {
        paths.push(entry.map_err(|e| e.to_string())?.path());
    }
    paths.sort();
    let mut all = Vec::new();
    for path in &paths {
        let extension = path.extension().unwrap_or_default();
        if extension == "expected" {
            read(&path.with_extension("events"))?;
        }
        if extension == "events" {
            all.push(Story {
                name: path
                    .file_stem()
                    .unwrap_or_default()
                    .to_string_lossy()
                    .into_owned(),
                events: read(path)?,
                expected: read(&path.with_extension("expected"))?,
            });
        }
    }
    match all.len() {
        0 => Err(String::from("there are no stories")),
        _ => Ok(all),
    }
}

/// Runs the program over each story, fed in each way, and hands back their
/// names.
pub fn run(program: &mut dyn Program) -> Result<Vec<String>, String> {
    let feeds = [Feed::File, Feed::Whole, Feed::Pieces(vec![1, 2, 5, 9, 20])];
    let mut names = Vec::new();
    for story in stories()? {
        for feed in &feeds {
            let out = program
                .run(&story.events, feed)
                .map_err(|e| format!("story {}, {}: {e}", story.name, feed.name()))?;
            if out != story.expected {
                return Err(format!(
                    "story {}, fed {}:\n{}",
                    story.name,
                    feed.name(),
                    first_difference(&lines(&story.events), &story.expected, &out).text
                ));
            }
        }
        names.push(story.name);
    }
    Ok(names)
}

fn lines(events: &[u8]) -> Vec<Vec<u8>> {
    let parts = events.split_inclusive(|&b| b == b'\n');
    parts.map(|part| part.to_vec()).collect()
}
