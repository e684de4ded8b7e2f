//! A history: what the group is, and the events. Events name heads, views and
//! lines by their numbers, so one that is left out does not shift the others.

/// The group, and how its heads start.
#[derive(Clone, Copy, PartialEq, Eq, Debug)]
pub struct Settings {
    pub w0: u16,
    pub q: u8,
    /// Heads 0 to this less one are started.
    pub heads: usize,
    /// Word 2 of every head after its start; not 0 only to come near the end
    /// of the numbers, which no history of a bearable length does.
    pub number: u32,
}

#[derive(Clone, Copy, PartialEq, Eq, Debug, PartialOrd, Ord, Hash)]
pub enum Kind {
    State,
    Attempt,
}

/// The stores a call may make; `None` is no limit.
pub type Budget = Option<u16>;

#[derive(Clone, Copy, PartialEq, Eq, Debug)]
pub enum Event {
    /// A view is announced: all who enter it have these heads.
    View {
        view: u32,
        heads: u16,
    },
    /// A head enters, and sends its state line.
    Enter {
        head: u8,
        view: u32,
        budget: Budget,
    },
    /// A line sent before is heard as a line of kind `ear`.
    Deliver {
        line: Kind,
        ear: Kind,
        view: u32,
        from: u8,
        to: u8,
    },
    /// A head decides, and sends its attempt line if it attempted.
    Decide {
        head: u8,
        budget: Budget,
    },
    Form {
        head: u8,
        budget: Budget,
    },
    Recover {
        head: u8,
        budget: Budget,
    },
    /// A head loses its session and no more.
    Stop {
        head: u8,
    },
    /// A line is written again, or out of turn, in so much room.
    Write {
        kind: Kind,
        head: u8,
        room: u16,
    },
}

#[derive(Clone, PartialEq, Eq, Debug)]
pub struct History {
    pub settings: Settings,
    pub events: Vec<Event>,
}

impl Event {
    /// The head that makes the call.
    pub fn head(&self) -> Option<u8> {
        match *self {
            Event::View { .. } => None,
            Event::Deliver { to, .. } => Some(to),
            Event::Enter { head, .. }
            | Event::Decide { head, .. }
            | Event::Form { head, .. }
            | Event::Recover { head, .. }
            | Event::Stop { head }
            | Event::Write { head, .. } => Some(head),
        }
    }

    pub fn budget(&self) -> Budget {
        match *self {
            Event::Enter { budget, .. }
            | Event::Decide { budget, .. }
            | Event::Form { budget, .. }
            | Event::Recover { budget, .. } => budget,
            _ => None,
        }
    }

    /// The same call with other stores.
    pub fn with_budget(self, budget: Budget) -> Event {
        match self {
            Event::Enter { head, view, .. } => Event::Enter { head, view, budget },
            Event::Decide { head, .. } => Event::Decide { head, budget },
            Event::Form { head, .. } => Event::Form { head, budget },
            Event::Recover { head, .. } => Event::Recover { head, budget },
            other => other,
        }
    }

    /// Enter, decide, form and recover are given a number of stores.
    pub fn stores(&self) -> bool {
        matches!(
            self,
            Event::Enter { .. } | Event::Decide { .. } | Event::Form { .. } | Event::Recover { .. }
        )
    }

    /// The view it names.
    pub fn view_mut(&mut self) -> Option<&mut u32> {
        match self {
            Event::View { view, .. } | Event::Enter { view, .. } | Event::Deliver { view, .. } => {
                Some(view)
            }
            _ => None,
        }
    }

    /// What a line of text says first of this event; events of one verb may
    /// share a line.
    pub fn verb(&self) -> String {
        let heard = |line, ear| match (line, ear) {
            (Kind::State, Kind::State) => "state",
            (Kind::Attempt, Kind::Attempt) => "attempt",
            (Kind::State, Kind::Attempt) => "state-as-attempt",
            (Kind::Attempt, Kind::State) => "attempt-as-state",
        };
        match *self {
            Event::View { .. } => String::from("view"),
            Event::Enter { view, .. } => format!("enter {view}"),
            Event::Deliver {
                line, ear, view, ..
            } => format!("{} {view}", heard(line, ear)),
            Event::Decide { .. } => String::from("decide"),
            Event::Form { .. } => String::from("form"),
            Event::Recover { .. } => String::from("recover"),
            Event::Stop { .. } => String::from("stop"),
            Event::Write {
                kind: Kind::State, ..
            } => String::from("write-state"),
            Event::Write {
                kind: Kind::Attempt,
                ..
            } => String::from("write-attempt"),
        }
    }
}
