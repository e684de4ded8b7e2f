//! Runs a program with given bytes on its standard input, fed in a given way,
//! and hands back what it prints.

use std::fs::File;
use std::io::{Read, Write};
use std::os::fd::AsRawFd;
use std::path::{Path, PathBuf};
use std::process::{Command, Stdio};
use std::time::{Duration, Instant};

/// How the bytes are fed.
#[derive(Clone, Debug)]
pub enum Feed {
    /// From a file.
    File,
    /// Through a pipe, as the pipe takes them.
    Whole,
    /// Through a pipe in pieces of these sizes in turn; each piece is written
    /// after the program has read the one before.
    Pieces(Vec<usize>),
}

impl Feed {
    pub fn name(&self) -> String {
        match self {
            Feed::File => String::from("from a file"),
            Feed::Whole => String::from("whole through a pipe"),
            Feed::Pieces(sizes) if sizes.len() == 1 => format!("in pieces of {}", sizes[0]),
            Feed::Pieces(sizes) => format!("in pieces of {} sizes in turn", sizes.len()),
        }
    }
}

/// A program that may do what `frames` does.
pub trait Program {
    fn run(&mut self, input: &[u8], feed: &Feed) -> Result<Vec<u8>, String>;
}

/// A program that is run as a process.
pub struct Process {
    pub path: PathBuf,
    /// A file that may be written for `Feed::File`.
    pub scratch: PathBuf,
    /// A run that takes longer is ended and counts as failed.
    pub limit: Duration,
}

// The number of bytes in a pipe that were not read yet.
const FIONREAD: std::os::raw::c_ulong = 0x541b;
extern "C" {
    fn ioctl(fd: i32, request: std::os::raw::c_ulong, ...) -> i32;
}

fn unread(fd: i32) -> Result<i32, String> {
    let mut count: i32 = 0;
    // SAFETY: FIONREAD writes one int to the given address.
    let status = unsafe { ioctl(fd, FIONREAD, &mut count as *mut i32) };
    if status == 0 {
        Ok(count)
    } else {
        Err(String::from("the pipe can't be asked for its unread bytes"))
    }
}

impl Program for Process {
    fn run(&mut self, input: &[u8], feed: &Feed) -> Result<Vec<u8>, String> {
        let stdin = match feed {
            Feed::File => {
                std::fs::write(&self.scratch, input).map_err(|e| e.to_string())?;
                Stdio::from(File::open(&self.scratch).map_err(|e| e.to_string())?)
            }
            _ => Stdio::piped(),
        };
        let mut child = Command::new(&self.path)
            .stdin(stdin)
            .stdout(Stdio::piped())
            .stderr(Stdio::inherit())
            .spawn()
            .map_err(|e| format!("{}: {e}", self.path.display()))?;
        let mut stdout = child.stdout.take().expect("standard output is a pipe");
        let reader = std::thread::spawn(move || {
            let mut out = Vec::new();
            stdout.read_to_end(&mut out).map(|_| out)
        });
        let end = Instant::now() + self.limit;

        let pipe = child.stdin.take();
        let fed = input.to_vec();
        let feed = feed.clone();
        let writer = std::thread::spawn(move || -> Result<(), String> {
            let Some(mut pipe) = pipe else { return Ok(()) };
            match feed {
                Feed::Pieces(sizes) => {
                    let mut at = 0;
                    let mut turn = 0;
                    while at < fed.len() {
                        let size = sizes[turn % sizes.len()].min(fed.len() - at);
                        turn += 1;
                        pipe.write_all(&fed[at..at + size])
                            .map_err(|e| format!("feeding: {e}"))?;
                        at += size;
                        while unread(pipe.as_raw_fd())? > 0 {
                            if Instant::now() > end {
                                return Err(String::from("the input isn't read"));
                            }
                            std::thread::yield_now();
                        }
                    }
                    Ok(())
                }
                _ => pipe.write_all(&fed).map_err(|e| format!("feeding: {e}")),
            }
        });

        let status = loop {
            if let Some(status) = child.try_wait().map_err(|e| e.to_string())? {
                break status;
            }
            if Instant::now() > end {
                let _ = child.kill();
                let _ = child.wait();
                return Err(format!("no end within {:?}", self.limit));
            }
            std::thread::sleep(Duration::from_micros(200));
        };
        writer.join().map_err(|_| "the feeding failed")??;
        let out = reader
            .join()
            .map_err(|_| "the reading failed")?
            .map_err(|e| e.to_string())?;
        if !status.success() {
            return Err(format!("the program ended with {status}"));
        }
        Ok(out)
    }
}

/// A path for scratch files, next to the running program.
pub fn scratch(name: &str) -> PathBuf {
    let here = std::env::current_exe().unwrap_or_default();
    let directory = here.parent().unwrap_or(Path::new(".")).to_path_buf();
    directory.join(format!("{name}-{}", std::process::id()))
}
