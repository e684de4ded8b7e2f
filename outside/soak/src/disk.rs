//! A head's record in a file: 52 words of 8 bytes, low byte first.

use compare::side::Side;
use second::answers::Answer;
use second::record::WORDS;
use std::fs::{File, OpenOptions};
use std::io;
use std::os::unix::fs::FileExt;
use std::path::Path;

const WORD_BYTES: usize = 8;

pub struct Disk {
    file: File,
}

impl Disk {
    pub fn open(path: &Path) -> io::Result<Disk> {
        let file = OpenOptions::new().read(true).write(true).open(path)?;
        Ok(Disk { file })
    }

    /// One positioned write of 8 bytes, durable when this returns.
    pub fn store(&self, word: usize, value: u64) -> io::Result<()> {
        let at = (word * WORD_BYTES) as u64;
        self.file.write_all_at(&value.to_le_bytes(), at)?;
        self.file.sync_data()
    }

    pub fn words(&self) -> io::Result<Vec<u64>> {
        let mut bytes = [0; WORDS * WORD_BYTES];
        self.file.read_exact_at(&mut bytes, 0)?;
        let words = bytes.chunks_exact(WORD_BYTES).map(|chunk| {
            chunk
                .iter()
                .rev()
                .fold(0, |word, &byte| word << 8 | byte as u64)
        });
        Ok(words.collect())
    }
}

/// Starts a head: its fresh record appears under its name whole or not at all.
pub fn start(
    side: &mut impl Side,
    path: &Path,
    head: u8,
    core: u16,
    least: u8,
) -> Result<(), String> {
    let mut record = vec![0; WORDS];
    let answer = side.start(&mut record, head, core, least);
    if answer != Answer::Started {
        return Err(format!("start answers {answer:?}"));
    }
    let bytes: Vec<u8> = record.iter().flat_map(|word| word.to_le_bytes()).collect();
    let new = path.with_extension("new");
    let write = || -> io::Result<()> {
        std::fs::write(&new, &bytes)?;
        File::open(&new)?.sync_all()?;
        std::fs::rename(&new, path)
    };
    write().map_err(|e| format!("{}: {e}", path.display()))
}
