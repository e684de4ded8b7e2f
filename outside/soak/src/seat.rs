//! A head's process as the driver sees it.

use crate::calls::Kind;
use crate::check::{head_folder, Group};
use crate::schedule::Stop;
use std::collections::VecDeque;
use std::io::{BufRead, BufReader, Write};
use std::net::SocketAddr;
use std::os::unix::process::ExitStatusExt;
use std::path::{Path, PathBuf};
use std::process::{Child, ChildStdin, ChildStdout, Command, Stdio};
use std::sync::mpsc::Sender;
use std::time::Duration;

/// What a head reports.
#[derive(Clone, Copy, PartialEq, Eq, Debug)]
pub enum Report {
    /// It has recovered, and hears lines at this port.
    Ready(u16),
    /// It stands still at the store that was named.
    Held,
    /// It will do no more in this view of itself.
    Settled { view: u32, formed: bool },
    /// A call answered 2: its own record or session is refused.
    Unfit,
    /// Its process has ended.
    Gone,
}

pub struct Event {
    pub head: u8,
    pub life: u32,
    pub report: Report,
}

/// What every head's process is told.
#[derive(Clone)]
pub struct Common {
    pub program: PathBuf,
    pub folder: PathBuf,
    pub group: Group,
    pub relay: SocketAddr,
    pub events: Sender<Event>,
}

pub struct Seat {
    pub head: u8,
    /// The lives that were begun.
    pub lives: u32,
    child: Option<Child>,
    commands: Option<ChildStdin>,
    pub ready: bool,
    /// The view in which it settled, and whether it formed.
    pub settled: Option<(u32, bool)>,
    /// The steps that it is still to stay down.
    pub down: u32,
    /// Kills that are to come in its recoveries.
    pub in_recovery: VecDeque<Stop>,
}

/// The signal of a kill.
const SIGKILL: i32 = 9;

impl Seat {
    pub fn new(head: u8, folder: &Path) -> Result<Seat, String> {
        let folder = head_folder(folder, head);
        std::fs::create_dir_all(&folder).map_err(|e| format!("{}: {e}", folder.display()))?;
        Ok(Seat {
            head,
            lives: 0,
            child: None,
            commands: None,
            ready: false,
            settled: None,
            down: 0,
            in_recovery: VecDeque::new(),
        })
    }

    pub fn is_up(&self) -> bool {
        self.child.is_some()
    }

    /// Makes the head's process. It recovers, and if a kill in its recovery is
    /// to come it stops on the way, or the time until the kill is handed back.
    pub fn spawn(&mut self, common: &Common) -> Result<Option<Duration>, String> {
        let mut command = Command::new(&common.program);
        command
            .arg(&common.folder)
            .arg(self.head.to_string())
            .arg(self.lives.to_string())
            .arg(format!("{:x}", common.group.core))
            .arg(common.group.least.to_string())
            .arg(common.relay.to_string())
            .stdin(Stdio::piped())
            .stdout(Stdio::piped());
        let stop = self.in_recovery.pop_front();
        if let Some(Stop::AtStore(at)) = stop {
            command.arg(at.to_string());
        }
        let program = common.program.display();
        let mut child = command.spawn().map_err(|e| format!("{program}: {e}"))?;
        let reports = child.stdout.take().expect("standard output is a pipe");
        let (head, life) = (self.head, self.lives);
        let events = common.events.clone();
        std::thread::spawn(move || read_reports(reports, head, life, events));
        self.commands = child.stdin.take();
        self.child = Some(child);
        self.lives += 1;
        self.ready = false;
        self.settled = None;
        Ok(match stop {
            Some(Stop::After(micros)) => Some(Duration::from_micros(micros)),
            _ => None,
        })
    }

    /// Is this an event of the process that runs now?
    pub fn is_current(&self, event: &Event) -> bool {
        self.is_up() && event.life + 1 == self.lives
    }

    pub fn tell(&mut self, command: &str) {
        if let Some(pipe) = &mut self.commands {
            // A head that has ended by itself is found by its last report.
            let _ = writeln!(pipe, "{command}");
        }
    }

    pub fn hold(&mut self, kind: Kind, at: u64) {
        self.tell(&format!("hold {} {at}", kind.name()));
    }

    /// Kills the process and waits for its end.
    pub fn kill(&mut self) -> Result<(), String> {
        let Some(mut child) = self.child.take() else {
            return Ok(());
        };
        let ended = child.kill().and_then(|()| child.wait());
        self.commands = None;
        self.ready = false;
        match ended {
            Ok(status) if status.signal() == Some(SIGKILL) => Ok(()),
            Ok(status) => Err(format!("head {} ended by itself: {status}", self.head)),
            Err(e) => Err(format!("head {} can't be killed: {e}", self.head)),
        }
    }

    /// Lets the process quit.
    pub fn quit(&mut self) -> Result<(), String> {
        self.commands = None;
        let Some(mut child) = self.child.take() else {
            return Ok(());
        };
        match child.wait() {
            Ok(status) if status.success() => Ok(()),
            Ok(status) => Err(format!("head {} ended with {status}", self.head)),
            Err(e) => Err(format!("head {}: {e}", self.head)),
        }
    }
}

impl Drop for Seat {
    /// A soak that fails leaves no process behind.
    fn drop(&mut self) {
        let _ = self.kill();
    }
}

fn read_reports(reports: ChildStdout, head: u8, life: u32, events: Sender<Event>) {
    let lines = BufReader::new(reports).lines().map_while(Result::ok);
    let reports = lines.filter_map(|line| report(&line));
    for report in reports.chain([Report::Gone]) {
        if events.send(Event { head, life, report }).is_err() {
            return;
        }
    }
}

fn report(line: &str) -> Option<Report> {
    let words: Vec<&str> = line.split(' ').collect();
    match words[..] {
        ["ready", port] => Some(Report::Ready(port.parse().ok()?)),
        ["held"] => Some(Report::Held),
        ["unfit"] => Some(Report::Unfit),
        ["settled", view, how] => Some(Report::Settled {
            view: view.parse().ok()?,
            formed: how == "formed",
        }),
        _ => None,
    }
}
