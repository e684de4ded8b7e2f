//! Three heads run to a formed session; the third loses power while it forms.
//! `outside/examples/three_heads.c` does the same and prints the same.

use head::{quorum, read_line, Decision, Fault, Head, Line, Read, Session, Stopped, Store, WORDS};
use std::error::Error;

const CORE: u16 = 0x0007;
const LEAST: u8 = 2;
const VIEW: u32 = 1;

/// Stands for a head's durable storage.
struct Flash {
    words: [u64; WORDS],
    written: usize,
    /// How many more words it stores before the power is lost.
    left: usize,
}

impl Store for Flash {
    fn read(&mut self) -> Result<[u64; WORDS], Stopped> {
        Ok(self.words)
    }

    fn put(&mut self, index: usize, word: u64) -> Result<(), Stopped> {
        self.left = self.left.checked_sub(1).ok_or(Stopped)?;
        self.words[index] = word;
        self.written += 1;
        Ok(())
    }
}

type Outcome<T> = Result<T, Box<dyn Error>>;

fn expect(is_so: bool, what: &str) -> Outcome<()> {
    if is_so {
        return Ok(());
    }
    Err(format!("unexpected: {what}").into())
}

fn shown(session: Option<Session>) -> String {
    match session {
        Some(s) => format!("({:04x}, {})", s.heads, s.number),
        None => "none".to_string(),
    }
}

/// Starts and enters.
fn begin(own: u8, left: usize) -> Outcome<Head<Flash>> {
    let flash = Flash {
        words: [0; WORDS],
        written: 0,
        left,
    };
    let mut head = Head::start(flash, own, CORE, LEAST)?;
    let started = head.store().written;
    head.enter(VIEW, CORE)?;
    let entered = head.store().written - started;
    println!("head {own} started, {started} words stored; entered view {VIEW} with {CORE:04x}, {entered} stored");
    Ok(head)
}

fn show_state(line: &Line) -> Outcome<()> {
    let (
        Read::State {
            view,
            sender,
            state,
        },
        [],
    ) = read_line(line.bytes())
    else {
        return Err("unexpected: no state line".into());
    };
    let (number, primary, places) = (state.number, shown(state.primary), state.places.len());
    println!("head {sender} sends its state in view {view}: number {number}, last primary {primary}, places {places}");
    Ok(())
}

fn hear_others(
    head: &mut Head<Flash>,
    hear: fn(&mut Head<Flash>, &[u8]) -> Result<(), Fault>,
    lines: &[Line],
) -> Result<(), Fault> {
    for (sender, line) in lines.iter().enumerate() {
        if sender != usize::from(head.own()) {
            hear(head, line.bytes())?;
        }
    }
    Ok(())
}

/// Hears the other heads' states and decides.
fn decide(head: &mut Head<Flash>, states: &[Line]) -> Outcome<()> {
    let own = head.own();
    hear_others(head, Head::hear_state, states)?;
    let before = head.store().written;
    expect(head.decide()? == Decision::Attempted, "no attempt")?;
    let stored = head.store().written - before;
    println!(
        "head {own} heard all states and attempted number {}, {stored} words stored",
        head.number()
    );
    Ok(())
}

/// Hears the other heads' attempts and forms.
fn form(head: &mut Head<Flash>, attempts: &[Line]) -> Outcome<Result<(), Fault>> {
    let own = head.own();
    hear_others(head, Head::hear_attempt, attempts)?;
    let before = head.store().written;
    let answer = head.form();
    let stored = head.store().written - before;
    match answer {
        Ok(()) => println!("head {own} heard all attempts and formed, {stored} words stored"),
        Err(_) => {
            println!("head {own} heard all attempts and lost power forming, {stored} word stored")
        }
    }
    Ok(answer)
}

/// Takes the head up again from its storage.
fn recover(head: Head<Flash>) -> Outcome<Head<Flash>> {
    let mut flash = head.into_store();
    let before = flash.written;
    flash.left = usize::MAX;
    let head = Head::recover(flash)?;
    println!(
        "head {} recovered, {} words stored",
        head.own(),
        head.store().written - before
    );
    Ok(head)
}

fn show_end(head: &Head<Flash>) -> Outcome<()> {
    let formed = Session {
        heads: CORE,
        number: 1,
    };
    let primary = head.last_primary();
    expect(primary == Some(formed), "another last primary")?;
    let holds = if head.is_primary() { "yes" } else { "no" };
    println!(
        "head {}: last primary {}, primary now: {holds}",
        head.own(),
        shown(primary)
    );
    Ok(())
}

fn main() -> Outcome<()> {
    expect(quorum(CORE, LEAST, CORE, 0x0003)?, "no quorum")?;
    println!("core {CORE:04x}, minimum {LEAST}: 0003 may follow {CORE:04x}");
    // Head 2 stores 8 words before it forms, and then one more.
    let mut heads = vec![begin(0, usize::MAX)?, begin(1, usize::MAX)?, begin(2, 9)?];

    let states = heads
        .iter_mut()
        .map(Head::state_line)
        .collect::<Result<Vec<_>, _>>()?;
    states.iter().try_for_each(show_state)?;
    heads
        .iter_mut()
        .try_for_each(|head| decide(head, &states))?;

    let attempts = heads
        .iter_mut()
        .map(Head::attempt_line)
        .collect::<Result<Vec<_>, _>>()?;
    let answers = heads
        .iter_mut()
        .map(|head| form(head, &attempts))
        .collect::<Result<Vec<_>, _>>()?;
    expect(
        answers == [Ok(()), Ok(()), Err(Fault::Stopped)],
        "answers of form",
    )?;
    let cut = heads.pop().ok_or("unexpected: no head 2")?;
    heads.push(recover(cut)?);

    heads.iter().try_for_each(show_end)
}
