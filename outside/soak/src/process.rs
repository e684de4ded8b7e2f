//! One head as a process: commands on standard input, lines over loopback,
//! reports on standard output.

use crate::caller::{Caller, Place};
use crate::calls::{Call, Kind, Outcome};
use crate::check::{log_path, record_path};
use crate::disk::{self, Disk};
use crate::log::Entry;
use crate::relay::{datagram, DATAGRAM};
use compare::proved_side::Proved;
use second::answers::{Answer, Refusal};
use second::group::heads_in;
use std::fs::{File, OpenOptions};
use std::io::{BufRead, Write};
use std::net::{Ipv4Addr, SocketAddr, UdpSocket};
use std::path::PathBuf;
use std::sync::mpsc::{channel, Receiver, RecvTimeoutError, Sender};
use std::time::{Duration, Instant};

/// An order to stop in the next call of a kind: of n stores `at` modulo n + 1
/// are made.
#[derive(Clone, Copy, PartialEq, Eq, Debug)]
pub struct Aim {
    pub kind: Kind,
    pub at: u64,
}

/// What a head is told when its process is made.
pub struct Orders {
    pub folder: PathBuf,
    pub head: u8,
    pub life: u32,
    pub core: u16,
    pub least: u8,
    pub relay: SocketAddr,
    /// A stop during the recovery.
    pub aim: Option<Aim>,
}

/// What a head waits for.
enum News {
    Clear,
    Hold(Aim),
    View {
        number: u32,
        members: u16,
    },
    Line(Vec<u8>),
    /// Standard input has ended: the head is to quit.
    Closed,
}

/// The head's log, record and standing order.
struct Ground {
    log: File,
    disk: Disk,
    aim: Option<Aim>,
    news: Receiver<News>,
}

impl Place for Ground {
    fn note(&mut self, entry: &Entry) {
        let line = entry.text() + "\n";
        self.log
            .write_all(line.as_bytes())
            .expect("the log is written");
    }

    fn store(&mut self, word: usize, value: u64) {
        self.disk.store(word, value).expect("a word is stored");
    }

    fn stored(&mut self) -> Vec<u64> {
        self.disk.words().expect("the record is read")
    }

    fn reached(&mut self, kind: Kind, made: usize, needed: usize) {
        let Some(aim) = self.aim else { return };
        if aim.kind == kind && aim.at % (needed as u64 + 1) == made as u64 {
            self.note(&Entry::Hold(made));
            report("held");
            self.stand_still();
        }
    }
}

impl Ground {
    /// Waits to be killed, or to be left alone if the driver has ended.
    fn stand_still(&self) -> ! {
        loop {
            if let Ok(News::Closed) | Err(_) = self.news.recv() {
                std::process::exit(0);
            }
        }
    }
}

fn report(text: &str) {
    // A driver that has ended reads nothing; standard input ends then too.
    let _ = writeln!(std::io::stdout(), "{text}");
}

/// The waits between sending the same lines again, until another view comes.
const FIRST_WAIT: Duration = Duration::from_millis(5);
const LONGEST_WAIT: Duration = Duration::from_millis(50);

struct Head {
    own: u8,
    caller: Caller<Proved, Ground>,
    socket: UdpSocket,
    relay: SocketAddr,
    view: u32,
    others: Vec<usize>,
    state_line: Vec<u8>,
    wait: Duration,
    again: Instant,
}

/// Runs one life of a head.
pub fn run(orders: Orders) -> Result<(), String> {
    let problem = |what: &'static str| move |e: std::io::Error| format!("{what}: {e}");
    let log = OpenOptions::new()
        .create_new(true)
        .append(true)
        .open(log_path(&orders.folder, orders.head, orders.life))
        .map_err(problem("the log"))?;
    let socket = UdpSocket::bind((Ipv4Addr::LOCALHOST, 0)).map_err(problem("the socket"))?;
    let port = socket.local_addr().map_err(problem("the socket"))?.port();
    let listening = socket.try_clone().map_err(problem("the socket"))?;
    let (sender, news) = channel();
    let commands = sender.clone();
    std::thread::spawn(move || read_commands(commands));
    let relay = orders.relay;
    std::thread::spawn(move || read_lines(listening, relay, sender));

    let ground = ground(&orders, log, news)?;
    let mut head = Head {
        own: orders.head,
        caller: Caller::recovered(Proved, ground),
        socket,
        relay,
        view: 0,
        others: Vec::new(),
        state_line: Vec::new(),
        wait: LONGEST_WAIT,
        again: Instant::now(),
    };
    head.caller.place.aim = None;
    report(&format!("ready {port}"));
    head.run();
    head.caller.place.note(&Entry::Quit);
    Ok(())
}

/// Starts the head if it has no record yet.
fn ground(orders: &Orders, log: File, news: Receiver<News>) -> Result<Ground, String> {
    let path = record_path(&orders.folder, orders.head);
    let fresh = !path.exists();
    if fresh {
        disk::start(&mut Proved, &path, orders.head, orders.core, orders.least)?;
    }
    let disk = Disk::open(&path).map_err(|e| format!("{}: {e}", path.display()))?;
    let mut ground = Ground {
        log,
        disk,
        aim: orders.aim,
        news,
    };
    if fresh {
        ground.note(&Entry::Started {
            core: orders.core,
            least: orders.least,
        });
    }
    Ok(ground)
}

fn read_commands(news: Sender<News>) {
    for line in std::io::stdin().lock().lines() {
        let Ok(line) = line else { break };
        let command = command(&line).unwrap_or_else(|| panic!("no command: {line}"));
        if news.send(command).is_err() {
            return;
        }
    }
    let _ = news.send(News::Closed);
}

fn command(line: &str) -> Option<News> {
    let words: Vec<&str> = line.split(' ').collect();
    match words[..] {
        ["clear"] => Some(News::Clear),
        ["hold", kind, at] => Some(News::Hold(Aim {
            kind: Kind::named(kind)?,
            at: at.parse().ok()?,
        })),
        ["view", number, members] => Some(News::View {
            number: number.parse().ok()?,
            members: u16::from_str_radix(members, 16).ok()?,
        }),
        _ => None,
    }
}

fn read_lines(socket: UdpSocket, relay: SocketAddr, news: Sender<News>) {
    let mut bytes = [0; DATAGRAM];
    loop {
        // An error reports a datagram that was not taken: one more that is lost.
        let Ok((length, from)) = socket.recv_from(&mut bytes) else {
            continue;
        };
        if from == relay && news.send(News::Line(bytes[..length].to_vec())).is_err() {
            return;
        }
    }
}

impl Head {
    fn run(&mut self) {
        loop {
            let wait = self.again.saturating_duration_since(Instant::now());
            match self.caller.place.news.recv_timeout(wait) {
                Ok(News::Clear) => self.caller.place.aim = None,
                Ok(News::Hold(aim)) => self.caller.place.aim = Some(aim),
                Ok(News::View { number, members }) => self.enter(number, members),
                Ok(News::Line(line)) => self.hear(line),
                Ok(News::Closed) | Err(RecvTimeoutError::Disconnected) => return,
                Err(RecvTimeoutError::Timeout) => self.send_again(),
            }
        }
    }

    /// Makes a call, and says at once if the head's own record or session is
    /// refused.
    fn call(&mut self, call: Call) -> Outcome {
        let outcome = self.caller.call(call);
        if outcome.answer == Answer::Refused(Refusal::BadRecordOrSession) {
            report("unfit");
        }
        outcome
    }

    fn enter(&mut self, view: u32, members: u16) {
        let outcome = self.call(Call::Enter { view, members });
        if outcome.answer != Answer::Entered {
            report(&format!("settled {view} out"));
            return;
        }
        self.view = view;
        let own = self.own as usize;
        self.others = heads_in(members)
            .into_iter()
            .filter(|&q| q != own)
            .collect();
        self.state_line.clear();
        self.wait = FIRST_WAIT;
        self.send_lines();
        self.decide();
    }

    fn hear(&mut self, line: Vec<u8>) {
        // The second character tells the kinds apart; any other is heard as a state.
        if line.get(1) == Some(&b'2') {
            let outcome = self.call(Call::HearAttempt(line));
            if outcome.answer == Answer::Heard {
                self.form();
            }
        } else {
            let outcome = self.call(Call::HearState(line));
            if outcome.answer == Answer::Heard {
                self.decide();
            }
        }
    }

    /// Tries to decide; the call itself says if a member was not yet heard.
    fn decide(&mut self) {
        match self.call(Call::Decide).answer {
            Answer::Attempted => {
                self.send_lines();
                self.form();
            }
            Answer::Refused(_) => {}
            _ => report(&format!("settled {} closed", self.view)),
        }
    }

    /// Tries to form; the call itself says if it is too early.
    fn form(&mut self) {
        if self.call(Call::Form).answer == Answer::Formed {
            report(&format!("settled {} formed", self.view));
        }
    }

    /// Sends the lines there are: the state line as it was last written once
    /// it can't be written any more, the attempt line once attempted.
    fn send_lines(&mut self) {
        let state = self.call(Call::WriteState);
        if let Answer::Written(_) = state.answer {
            self.state_line = state.line;
        }
        self.send(&self.state_line);
        let attempt = self.call(Call::WriteAttempt);
        if let Answer::Written(_) = attempt.answer {
            self.send(&attempt.line);
        }
        self.again = Instant::now() + self.wait;
    }

    fn send_again(&mut self) {
        self.wait = (self.wait * 2).min(LONGEST_WAIT);
        if self.others.is_empty() {
            self.again = Instant::now() + self.wait;
        } else {
            self.send_lines();
        }
    }

    fn send(&self, line: &[u8]) {
        for &to in &self.others {
            // A line that can't be sent is one more that is lost.
            let _ = self
                .socket
                .send_to(&datagram(self.own, to as u8, line), self.relay);
        }
    }
}
