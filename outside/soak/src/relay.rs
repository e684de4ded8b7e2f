//! Carries lines between heads over loopback, and loses, delays, repeats and
//! shortens them as the step says.

use crate::schedule::{Links, View};
use compare::rng::Rng;
use second::group::has;
use std::collections::HashMap;
use std::io::ErrorKind;
use std::net::{Ipv4Addr, SocketAddr, UdpSocket};
use std::sync::{Arc, Mutex};
use std::thread::JoinHandle;
use std::time::{Duration, Instant};

/// Room for any datagram: sender and receiver in a byte each, then a line.
pub const DATAGRAM: usize = 512;
const HEADER: usize = 2;
const HEADS: usize = 16;

pub fn datagram(from: u8, to: u8, line: &[u8]) -> Vec<u8> {
    [&[from, to], line].concat()
}

/// What the relay did with lines.
#[derive(Clone, Copy, Default, Debug)]
pub struct Carried {
    pub taken: u64,
    pub lost: u64,
    pub parted: u64,
    pub repeated: u64,
    pub late: u64,
    pub short: u64,
}

/// One copy of a line on its way: how late, and how many bytes are lost.
#[derive(Clone, Copy, PartialEq, Eq, Debug)]
struct Copy {
    delay: Duration,
    lost_end: usize,
}

/// The fate of the n-th line of its first character's kind on a link: from
/// the seed and these numbers alone.
fn fate(links: &Links, from: u8, to: u8, kind: u8, n: u64, carried: &mut Carried) -> Vec<Copy> {
    let link = (links.step as u64) << 16 | (from as u64) << 8 | to as u64;
    if chance(&mut mixed(&[links.seed, link]), links.severed) {
        carried.lost += 1;
        return Vec::new();
    }
    let mut rng = mixed(&[links.seed, link, kind as u64, n]);
    if chance(&mut rng, links.loss) {
        carried.lost += 1;
        return Vec::new();
    }
    let copies = if chance(&mut rng, links.repeat) { 2 } else { 1 };
    carried.repeated += copies - 1;
    (0..copies)
        .map(|_| copy(&mut rng, links, carried))
        .collect()
}

fn copy(rng: &mut Rng, links: &Links, carried: &mut Carried) -> Copy {
    let late = chance(rng, links.late);
    let short = chance(rng, links.short);
    carried.late += u64::from(late);
    carried.short += u64::from(short);
    let most = if late { 150_000 } else { 500 };
    let delay = if links.loss > 0 { rng.below(most) } else { 0 };
    Copy {
        delay: Duration::from_micros(delay),
        lost_end: if short { rng.range(1, 12) as usize } else { 0 },
    }
}

fn chance(rng: &mut Rng, thousandths: u64) -> bool {
    rng.below(1000) < thousandths
}

fn mixed(parts: &[u64]) -> Rng {
    let state = parts
        .iter()
        .fold(0, |state, part| Rng::new(state ^ part).next());
    Rng::new(state)
}

/// What the driver tells the relay, and what it reads from it.
struct Table {
    addresses: [Option<SocketAddr>; HEADS],
    groups: Vec<View>,
    links: Links,
    carried: Carried,
    stop: bool,
}

pub struct Relay {
    table: Arc<Mutex<Table>>,
    pub address: SocketAddr,
    thread: Option<JoinHandle<()>>,
}

impl Relay {
    pub fn start() -> std::io::Result<Relay> {
        let socket = UdpSocket::bind((Ipv4Addr::LOCALHOST, 0))?;
        let address = socket.local_addr()?;
        let table = Arc::new(Mutex::new(Table {
            addresses: [None; HEADS],
            groups: Vec::new(),
            links: Links::default(),
            carried: Carried::default(),
            stop: false,
        }));
        let mut carrier = Carrier {
            socket,
            table: Arc::clone(&table),
            waiting: Vec::new(),
            seen: HashMap::new(),
            step: 0,
        };
        let thread = std::thread::spawn(move || carrier.run());
        Ok(Relay {
            table,
            address,
            thread: Some(thread),
        })
    }

    fn change(&self, change: impl FnOnce(&mut Table)) {
        change(&mut self.table.lock().expect("the relay's table"));
    }

    /// Where a head is reached; none while it is down.
    pub fn place(&self, head: u8, address: Option<SocketAddr>) {
        self.change(|table| table.addresses[head as usize] = address);
    }

    pub fn step(&self, groups: &[View], links: Links) {
        self.change(|table| {
            table.groups = groups.to_vec();
            table.links = links;
        });
    }

    pub fn carried(&self) -> Carried {
        self.table.lock().expect("the relay's table").carried
    }
}

impl Drop for Relay {
    fn drop(&mut self) {
        self.change(|table| table.stop = true);
        if let Some(thread) = self.thread.take() {
            let _ = thread.join();
        }
    }
}

/// The relay's thread.
struct Carrier {
    socket: UdpSocket,
    table: Arc<Mutex<Table>>,
    /// Copies that are still on their way: when, to whom, and the bytes.
    waiting: Vec<(Instant, u8, Vec<u8>)>,
    /// Lines seen in this step by link and kind.
    seen: HashMap<(u8, u8, u8), u64>,
    step: u32,
}

impl Carrier {
    fn run(&mut self) {
        let mut bytes = [0; DATAGRAM];
        while !self.table.lock().expect("the relay's table").stop {
            let wait = self.until_next().max(Duration::from_micros(100));
            let _ = self.socket.set_read_timeout(Some(wait));
            match self.socket.recv(&mut bytes) {
                Ok(length) if length > HEADER => self.take(&bytes[..length]),
                Ok(_) => {}
                Err(e) if matches!(e.kind(), ErrorKind::WouldBlock | ErrorKind::TimedOut) => {}
                // A head that was killed is reported here; its lines are lost.
                Err(_) => {}
            }
            self.deliver();
        }
    }

    fn until_next(&self) -> Duration {
        let now = Instant::now();
        let next = self.waiting.iter().map(|(due, _, _)| *due).min();
        next.map_or(Duration::from_millis(20), |due| {
            due.saturating_duration_since(now)
        })
    }

    fn take(&mut self, bytes: &[u8]) {
        let (from, to, line) = (bytes[0], bytes[1], &bytes[HEADER..]);
        let mut table = self.table.lock().expect("the relay's table");
        table.carried.taken += 1;
        let both = |view: &View| has(view.members, from as usize) && has(view.members, to as usize);
        if !table.groups.iter().any(both) {
            table.carried.parted += 1;
            return;
        }
        if self.step != table.links.step {
            self.step = table.links.step;
            self.seen.clear();
        }
        let kind = line.get(1).copied().unwrap_or(0);
        let n = self.seen.entry((from, to, kind)).or_default();
        *n += 1;
        let links = table.links;
        let now = Instant::now();
        for copy in fate(&links, from, to, kind, *n, &mut table.carried) {
            let length = line.len().saturating_sub(copy.lost_end);
            let due = now + copy.delay;
            self.waiting.push((due, to, line[..length].to_vec()));
        }
    }

    fn deliver(&mut self) {
        let now = Instant::now();
        let table = self.table.lock().expect("the relay's table");
        let socket = &self.socket;
        self.waiting.retain(|(due, to, line)| {
            if *due > now {
                return true;
            }
            if let Some(address) = table.addresses[*to as usize] {
                let _ = socket.send_to(line, address);
            }
            false
        });
    }
}

#[cfg(test)]
mod tests {
    use super::*;

    #[test]
    fn a_fate_comes_from_the_seed_alone() {
        let links = Links {
            seed: 3,
            step: 9,
            severed: 100,
            loss: 300,
            repeat: 300,
            late: 100,
            short: 100,
        };
        let fates = |links: &Links| {
            let mut carried = Carried::default();
            let lines = (0..400).map(|n| fate(links, 1, (n % 7) as u8, 1, n, &mut carried));
            let all: Vec<_> = lines.collect();
            (all, carried.lost, carried.repeated, carried.short)
        };
        assert_eq!(fates(&links), fates(&links));
        assert_ne!(fates(&links), fates(&Links { seed: 4, ..links }));
        let (_, lost, repeated, short) = fates(&links);
        assert!(lost > 50 && repeated > 20 && short > 5);
    }

    #[test]
    fn without_faults_a_line_comes_once_at_once_and_whole() {
        let mut carried = Carried::default();
        let fate = fate(&Links::default(), 1, 2, 1, 1, &mut carried);
        let plain = Copy {
            delay: Duration::ZERO,
            lost_end: 0,
        };
        assert_eq!(fate, [plain]);
    }
}
