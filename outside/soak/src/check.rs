//! The check of a whole soak from the folder with the heads' logs and files.

use crate::chain::chain;
use crate::counts::Counts;
use crate::disk::Disk;
use crate::log::{read_all, Entry};
use crate::replay::Replay;
use second::group::Session;
use std::collections::HashSet;
use std::io::ErrorKind;
use std::path::{Path, PathBuf};

/// The group that a soak is about.
#[derive(Clone, Copy, PartialEq, Eq, Debug)]
pub struct Group {
    pub heads: u8,
    pub core: u16,
    pub least: u8,
}

pub fn head_folder(folder: &Path, head: u8) -> PathBuf {
    folder.join(format!("head-{head:02}"))
}

pub fn record_path(folder: &Path, head: u8) -> PathBuf {
    head_folder(folder, head).join("record")
}

pub fn log_path(folder: &Path, head: u8, life: u32) -> PathBuf {
    head_folder(folder, head).join(format!("life-{life:06}.log"))
}

/// Reads the log of one life.
pub fn read_life(folder: &Path, head: u8, life: u32) -> Result<Vec<Entry>, String> {
    let path = log_path(folder, head, life);
    // A head killed before its first entry may have no log.
    let text = match std::fs::read_to_string(&path) {
        Ok(text) => text,
        Err(e) if e.kind() == ErrorKind::NotFound => String::new(),
        Err(e) => return Err(format!("{}: {e}", path.display())),
    };
    read_all(&text)
}

/// Reads the record in a head's file.
pub fn read_record(folder: &Path, head: u8) -> Result<Vec<u64>, String> {
    let path = record_path(folder, head);
    let words = Disk::open(&path).and_then(|disk| disk.words());
    words.map_err(|e| format!("{}: {e}", path.display()))
}

/// What a good soak was.
pub struct Good {
    pub counts: Counts,
    pub chain: Vec<Session>,
}

/// Checks all heads, and the chain over the sessions that they formed.
pub struct Check {
    group: Group,
    counts: Counts,
    written: HashSet<Vec<u8>>,
    heard: HashSet<Vec<u8>>,
    views: HashSet<(u32, u16)>,
}

impl Check {
    pub fn new(group: Group) -> Check {
        Check {
            group,
            counts: Counts::default(),
            written: HashSet::new(),
            heard: HashSet::new(),
            views: HashSet::new(),
        }
    }

    /// Goes through the lives of one head, whose file holds these words at
    /// the end.
    pub fn head(
        &mut self,
        head: u8,
        lives: impl Iterator<Item = Result<Vec<Entry>, String>>,
        file: &[u64],
    ) -> Result<(), String> {
        let mut replay = Replay::new(head, self.group.core, self.group.least);
        for (life, entries) in lives.enumerate() {
            let gone = entries.and_then(|entries| replay.life(&entries));
            gone.map_err(|problem| format!("head {head}, life {life}, {problem}"))?;
        }
        let last = replay.last(file);
        last.map_err(|problem| format!("head {head}: {problem}"))?;
        self.counts.add(&replay.counts);
        self.written.extend(replay.written);
        self.heard.extend(replay.heard);
        self.views.extend(replay.views);
        Ok(())
    }

    /// What a history asks for was given, and the formed sessions are a chain.
    pub fn together(self) -> Result<Good, String> {
        self.lines_were_written()?;
        self.views_have_one_membership()?;
        let chain = self.formed_chain()?;
        Ok(Good {
            counts: self.counts,
            chain,
        })
    }

    /// The chain over the sessions formed by the heads gone through.
    pub fn formed_chain(&self) -> Result<Vec<Session>, String> {
        chain(self.group.core, &self.counts.formed)
    }

    fn lines_were_written(&self) -> Result<(), String> {
        match self.heard.difference(&self.written).next() {
            None => Ok(()),
            Some(line) => {
                let line = String::from_utf8_lossy(line);
                Err(format!("a line was heard that no head wrote: {line}"))
            }
        }
    }

    fn views_have_one_membership(&self) -> Result<(), String> {
        let numbers: HashSet<u32> = self.views.iter().map(|(number, _)| *number).collect();
        if numbers.len() == self.views.len() {
            Ok(())
        } else {
            Err(String::from("one view number was given to two memberships"))
        }
    }
}
