//! The driver: announces views, arms and makes kills, restarts heads.

use crate::check::Group;
use crate::relay::{Carried, Relay};
use crate::schedule::{Kill, Manner, Moment, Schedule, Step, View};
use crate::seat::{Common, Event, Report, Seat};
use second::group::has;
use std::collections::VecDeque;
use std::fs::File;
use std::io::Write;
use std::net::{Ipv4Addr, SocketAddr};
use std::path::{Path, PathBuf};
use std::sync::mpsc::{channel, Receiver, RecvTimeoutError};
use std::time::{Duration, Instant};

/// How long a soak runs: this time, and at least this many steps, so that a
/// slow machine meets as much as a fast one.
#[derive(Clone, Copy)]
pub struct Length {
    pub time: Duration,
    pub steps: u32,
}

/// What the driver did.
#[derive(Clone, Debug, Default)]
pub struct Ran {
    pub steps: u64,
    pub calm: u64,
    pub staged: u64,
    pub views: u64,
    pub kills: u64,
    /// Kills at a named store that the head did not come to.
    pub unmet: u64,
    pub lives: Vec<u32>,
    pub carried: Carried,
}

/// The longest wait for a kill at a named store. It is seldom needed: a line
/// that the system drops isn't sent again by a head that was killed.
const STAGED_LIMIT: Duration = Duration::from_secs(3);

/// How often the driver looks at the clock.
const LOOK: Duration = Duration::from_millis(2);

/// The time given to a head to recover.
const LIMIT: Duration = Duration::from_secs(120);

/// A kill that is due at a time, if the head is in that life then.
struct Timer {
    due: Instant,
    head: usize,
    life: u32,
    /// None for a kill in a recovery.
    kill: Option<Kill>,
}

pub struct Driver {
    common: Common,
    relay: Relay,
    seats: Vec<Seat>,
    events: Receiver<Event>,
    /// The view that each head is in, and the kill that is armed for it.
    current: Vec<Option<View>>,
    armed: Vec<Option<Kill>>,
    timers: Vec<Timer>,
    ran: Ran,
}

impl Driver {
    pub fn new(program: PathBuf, folder: &Path, group: Group) -> Result<Driver, String> {
        let relay = Relay::start().map_err(|e| format!("the relay: {e}"))?;
        let (sender, events) = channel();
        let seats: Result<Vec<Seat>, String> = (0..group.heads)
            .map(|head| Seat::new(head, folder))
            .collect();
        let count = group.heads as usize;
        Ok(Driver {
            common: Common {
                program,
                folder: folder.to_path_buf(),
                group,
                relay: relay.address,
                events: sender,
            },
            relay,
            seats: seats?,
            events,
            current: vec![None; count],
            armed: vec![None; count],
            timers: Vec::new(),
            ran: Ran::default(),
        })
    }

    /// Runs the schedule. The last step is a calm one, so that no head stands
    /// at a store when all are told to quit.
    pub fn run(mut self, schedule: Schedule, length: Length) -> Result<Ran, String> {
        let end = Instant::now() + length.time;
        let path = self.common.folder.join("schedule");
        let mut plan = File::create(&path).map_err(|e| format!("{}: {e}", path.display()))?;
        for step in schedule {
            writeln!(plan, "{step}").map_err(|e| format!("{}: {e}", path.display()))?;
            self.step(&step)
                .map_err(|problem| format!("{problem}, in {step}"))?;
            if step.manner == Manner::Calm && step.number >= length.steps && Instant::now() >= end {
                break;
            }
        }
        for seat in &mut self.seats {
            seat.quit()?;
            self.ran.lives.push(seat.lives);
        }
        self.ran.carried = self.relay.carried();
        Ok(self.ran)
    }

    fn step(&mut self, step: &Step) -> Result<(), String> {
        self.bring_up(step.manner != Manner::Rough)?;
        self.announce(step);
        self.wait(step)?;
        self.ran.steps += 1;
        self.ran.calm += u64::from(step.manner == Manner::Calm);
        self.ran.staged += u64::from(step.manner == Manner::Staged);
        self.ran.views += step.groups.len() as u64;
        self.ran.unmet += self.armed.iter().flatten().count() as u64;
        Ok(())
    }

    /// Makes the processes that are due and waits until they have recovered.
    fn bring_up(&mut self, all: bool) -> Result<(), String> {
        self.current.fill(None);
        self.armed.fill(None);
        self.timers.clear();
        for head in 0..self.seats.len() {
            let seat = &mut self.seats[head];
            if seat.is_up() {
                continue;
            }
            if all || seat.down == 0 {
                self.spawn(head)?;
            } else {
                seat.down -= 1;
            }
        }
        let end = Instant::now() + LIMIT;
        while self.seats.iter().any(|seat| seat.is_up() && !seat.ready) {
            if Instant::now() >= end {
                return Err(String::from("a head does not recover"));
            }
            self.look()?;
        }
        // A kill in a recovery that is over must not fall in the step.
        self.timers.clear();
        Ok(())
    }

    /// Makes a head's process, and sets the time of a kill in its recovery.
    fn spawn(&mut self, head: usize) -> Result<(), String> {
        let after = self.seats[head].spawn(&self.common)?;
        if let Some(after) = after {
            self.set_timer(head, after, None);
        }
        Ok(())
    }

    fn set_timer(&mut self, head: usize, after: Duration, kill: Option<Kill>) {
        self.timers.push(Timer {
            due: Instant::now() + after,
            head,
            life: self.seats[head].lives,
            kill,
        });
    }

    fn announce(&mut self, step: &Step) {
        self.relay.step(&step.groups, step.links);
        for view in &step.groups {
            for seat in &self.seats {
                if has(view.members, seat.head as usize) {
                    self.current[seat.head as usize] = Some(*view);
                }
            }
        }
        for kill in &step.kills {
            if let Moment::AtStore { .. } = kill.moment {
                self.armed[kill.head as usize] = Some(kill.clone());
            }
        }
        for head in 0..self.seats.len() {
            self.seats[head].tell("clear");
            self.tell_view(head);
        }
        if let Some((head, view)) = step.stray {
            self.seats[head as usize].tell(&view_command(view));
        }
    }

    /// Tells a head of the kill armed for it, then of its view.
    fn tell_view(&mut self, head: usize) {
        let armed = self.armed[head].as_ref().map(|kill| kill.moment);
        if let Some(Moment::AtStore { kind, at }) = armed {
            self.seats[head].hold(kind, at);
        }
        if let Some(view) = self.current[head] {
            self.seats[head].tell(&view_command(view));
        }
    }

    /// Waits until the step is over, and kills where it says so.
    fn wait(&mut self, step: &Step) -> Result<(), String> {
        let begun = Instant::now();
        for kill in &step.kills {
            if let Moment::After { micros } = kill.moment {
                let after = Duration::from_micros(micros);
                self.set_timer(kill.head as usize, after, Some(kill.clone()));
            }
        }
        while begun.elapsed() < self.limit(step) {
            if self.timers.is_empty() && self.all_settled() {
                break;
            }
            self.look()?;
        }
        if step.manner == Manner::Calm && !self.all_formed() {
            return Err(String::from("a head did not form in a calm step"));
        }
        Ok(())
    }

    /// How long the step may last, as things are.
    fn limit(&self, step: &Step) -> Duration {
        if step.manner == Manner::Staged && self.a_kill_is_to_come() {
            STAGED_LIMIT
        } else {
            Duration::from_millis(step.patience)
        }
    }

    /// Is a head that is to be killed still on its way there?
    fn a_kill_is_to_come(&self) -> bool {
        let armed = |seat: &&Seat| self.armed[seat.head as usize].is_some();
        self.seats
            .iter()
            .filter(armed)
            .any(|seat| !self.is_settled(seat))
    }

    /// A head that is down or in no view has nothing to settle.
    fn is_settled(&self, seat: &Seat) -> bool {
        let settled = seat.settled.map(|(view, _)| view);
        let view = self.current[seat.head as usize].map(|view| view.number);
        !seat.is_up() || view.is_none() || settled == view
    }

    fn all_settled(&self) -> bool {
        self.seats.iter().all(|seat| self.is_settled(seat))
    }

    fn all_formed(&self) -> bool {
        self.seats.iter().all(|seat| {
            let view = self.current[seat.head as usize];
            view.is_some_and(|view| seat.settled == Some((view.number, true)))
        })
    }

    /// Waits a short while for an event, acts on it, and makes the kills that
    /// are due.
    fn look(&mut self) -> Result<(), String> {
        let now = Instant::now();
        let due = self.timers.iter().map(|timer| timer.due).min();
        let wait = due.map_or(LOOK, |due| due.saturating_duration_since(now));
        match self.events.recv_timeout(wait.min(LOOK)) {
            Ok(event) => self.act(&event)?,
            Err(RecvTimeoutError::Timeout) => {}
            Err(RecvTimeoutError::Disconnected) => return Err(String::from("no head reports")),
        }
        self.make_due_kills()
    }

    fn make_due_kills(&mut self) -> Result<(), String> {
        let now = Instant::now();
        let all = std::mem::take(&mut self.timers).into_iter();
        let (due, later): (Vec<Timer>, Vec<Timer>) = all.partition(|timer| timer.due <= now);
        self.timers = later;
        for timer in due {
            let seat = &self.seats[timer.head];
            if !seat.is_up() || seat.lives != timer.life {
                continue;
            }
            match timer.kill {
                None => self.kill_in_recovery(timer.head)?,
                kill => self.kill(timer.head, kill)?,
            }
        }
        Ok(())
    }

    fn act(&mut self, event: &Event) -> Result<(), String> {
        let head = event.head as usize;
        if !self.seats[head].is_current(event) {
            return Ok(());
        }
        match event.report {
            Report::Ready(port) => {
                let address = SocketAddr::from((Ipv4Addr::LOCALHOST, port));
                self.relay.place(event.head, Some(address));
                self.seats[head].ready = true;
                // A head that comes back is told of its view again.
                self.tell_view(head);
            }
            Report::Held if self.seats[head].ready => {
                let kill = self.armed[head].take();
                self.kill(head, kill)?;
            }
            Report::Held => self.kill_in_recovery(head)?,
            Report::Settled { view, formed } => {
                if self.current[head].is_some_and(|current| current.number == view) {
                    self.seats[head].settled = Some((view, formed));
                }
            }
            Report::Unfit => return Err(format!("head {head} answers 2")),
            Report::Gone => return Err(format!("head {head} ended by itself")),
        }
        Ok(())
    }

    /// Kills a head as the schedule says.
    fn kill(&mut self, head: usize, kill: Option<Kill>) -> Result<(), String> {
        self.end_life(head)?;
        let seat = &mut self.seats[head];
        seat.down = kill.as_ref().map_or(0, |kill| kill.down);
        seat.in_recovery = kill.map_or(VecDeque::new(), |kill| kill.in_recovery.into());
        if seat.down == 0 {
            self.spawn(head)?;
        }
        Ok(())
    }

    /// Kills a head that is at its recovery, and lets it recover again.
    fn kill_in_recovery(&mut self, head: usize) -> Result<(), String> {
        self.end_life(head)?;
        self.spawn(head)
    }

    fn end_life(&mut self, head: usize) -> Result<(), String> {
        self.relay.place(head as u8, None);
        self.ran.kills += 1;
        self.seats[head].kill()
    }
}

fn view_command(view: View) -> String {
    format!("view {} {:x}", view.number, view.members)
}
