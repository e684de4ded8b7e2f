//! The checker on logs made in memory: it takes the honest ones, cut
//! anywhere, and finds each damage.

use compare::proved_side::Proved;
use compare::side::Side;
use second::answers::{Answer, Refusal};
use second::record::{PRIMARY, WORDS};
use soak::caller::{Caller, Place};
use soak::calls::{Call, Kind};
use soak::check::{Check, Good, Group};
use soak::counts::{Counts, Fell};
use soak::log::{read_all, Entry};

const GROUP: Group = Group {
    heads: 3,
    core: 0x7,
    least: 1,
};

/// A log and a record in memory.
struct Memory {
    log: Vec<Entry>,
    words: Vec<u64>,
}

impl Place for Memory {
    fn note(&mut self, entry: &Entry) {
        self.log.push(entry.clone());
    }

    fn store(&mut self, word: usize, value: u64) {
        self.words[word] = value;
    }

    fn stored(&mut self) -> Vec<u64> {
        self.words.clone()
    }

    fn reached(&mut self, _: Kind, _: usize, _: usize) {}
}

type Head = Caller<Proved, Memory>;

fn fresh(head: u8) -> Vec<u64> {
    let mut words = vec![0; WORDS];
    assert_eq!(
        Proved.start(&mut words, head, GROUP.core, GROUP.least),
        Answer::Started
    );
    words
}

fn begin(head: u8) -> Head {
    let started = Entry::Started {
        core: GROUP.core,
        least: GROUP.least,
    };
    Caller::recovered(
        Proved,
        Memory {
            log: vec![started],
            words: fresh(head),
        },
    )
}

/// A head's lives and the record in its file.
#[derive(Clone)]
struct Story {
    lives: Vec<Vec<Entry>>,
    file: Vec<u64>,
}

fn quit(head: Head) -> Story {
    let mut log = head.place.log;
    log.push(Entry::Quit);
    Story {
        lives: vec![log],
        file: head.place.words,
    }
}

/// The heads of a set go through a view together, up to forming.
fn view(heads: &mut [Head], number: u32, members: u16, forming: u16) {
    let of = |set: u16| (0..16).filter(move |h| set >> h & 1 == 1);
    let mut states = Vec::new();
    for h in of(members) {
        heads[h].call(Call::Enter {
            view: number,
            members,
        });
        states.push((h, heads[h].call(Call::WriteState).line));
    }
    let mut attempts = Vec::new();
    for h in of(members) {
        for (from, line) in &states {
            if *from != h {
                heads[h].call(Call::HearState(line.clone()));
            }
        }
        heads[h].call(Call::Decide);
        attempts.push((h, heads[h].call(Call::WriteAttempt).line));
    }
    for h in of(forming) {
        for (from, line) in &attempts {
            if *from != h {
                heads[h].call(Call::HearAttempt(line.clone()));
            }
        }
        heads[h].call(Call::Form);
    }
}

/// View 1 of all heads, formed by 0 and 1; view 2 of 0 and 2, where 2 adopts.
fn honest() -> Vec<Story> {
    let mut heads: Vec<Head> = (0..3).map(begin).collect();
    view(&mut heads, 1, 0x7, 0x3);
    view(&mut heads, 2, 0x5, 0x5);
    heads.into_iter().map(quit).collect()
}

/// The checker after going through the stories of heads 0, 1, ..
fn gone_through(stories: &[Story]) -> Result<Check, String> {
    let mut check = Check::new(GROUP);
    for (head, story) in stories.iter().enumerate() {
        let lives = story.lives.iter().cloned().map(Ok);
        check.head(head as u8, lives, &story.file)?;
    }
    Ok(check)
}

fn check(stories: &[Story]) -> Result<Good, String> {
    gone_through(stories)?.together()
}

/// The record in the file after the entries of a log: the words found and
/// the stores that were made.
fn file_after(entries: &[Entry]) -> Vec<u64> {
    let mut words = Vec::new();
    let mut begun = (0, 0);
    for entry in entries {
        match entry {
            Entry::Found(found) => words = found.clone(),
            Entry::Store { word, value, .. } => begun = (*word, *value),
            Entry::Stored(_) => words[begun.0] = begun.1,
            _ => {}
        }
    }
    words
}

/// The next life of a head that finds these words.
fn next_life(words: Vec<u64>) -> Head {
    Caller::recovered(
        Proved,
        Memory {
            log: Vec::new(),
            words,
        },
    )
}

/// The story of a head killed after so many entries of its last life, with
/// one more life.
fn killed(story: &Story, entries: usize, store_made: bool) -> Story {
    let mut lives = story.lives.clone();
    let last = lives.last_mut().expect("a life");
    last.truncate(entries);
    let mut words = file_after(last);
    if let (true, Some(Entry::Store { word, value, .. })) = (store_made, last.last()) {
        words[*word] = *value;
    }
    let next = quit(next_life(words));
    lives.extend(next.lives);
    Story {
        lives,
        file: next.file,
    }
}

fn find(log: &[Entry], wanted: impl Fn(&Entry) -> bool) -> usize {
    log.iter().position(wanted).expect("the entry is there")
}

fn is_form(entry: &Entry) -> bool {
    *entry == Entry::Call(Call::Form)
}

/// The problem that is found when one story is damaged.
fn problem(head: usize, damage: impl FnOnce(&mut Story)) -> String {
    let mut stories = honest();
    damage(&mut stories[head]);
    match check(&stories) {
        Ok(_) => String::from("nothing was found"),
        Err(problem) => problem,
    }
}

#[track_caller]
fn finds(problem: String, words: &str) {
    assert!(problem.contains(words), "{problem}");
}

#[test]
fn honest_logs_are_taken() {
    let good = check(&honest()).unwrap_or_else(|problem| panic!("{problem}"));
    assert_eq!(good.counts.formed.len(), 4);
    assert_eq!(good.chain.len(), 3);
    assert_eq!(good.counts.killed(|_, _| true), 0);
}

#[test]
fn a_kill_anywhere_is_taken() {
    for head in 0..3 {
        let stories = honest();
        let length = stories[head].lives[0].len();
        for entries in 2..length {
            for store_made in [false, true] {
                let mut cut = honest();
                cut[head] = killed(&stories[head], entries, store_made);
                // Lines that others heard may be missing: one head is checked.
                let mut check = Check::new(GROUP);
                let lives = cut[head].lives.iter().cloned().map(Ok);
                let taken = check.head(head as u8, lives, &cut[head].file);
                assert_eq!(taken, Ok(()), "head {head}, {entries} entries");
            }
        }
    }
}

/// View 1 of all heads; head 0 alone forms, is killed in it after so many
/// entries, and recovers.
fn cut_form_at(entries: usize, store_made: bool) -> Vec<Story> {
    let mut heads: Vec<Head> = (0..3).map(begin).collect();
    view(&mut heads, 1, 0x7, 0x1);
    let mut stories: Vec<Story> = heads.into_iter().map(quit).collect();
    let form = find(&stories[0].lives[0], is_form);
    stories[0] = killed(&stories[0], form + 1 + entries, store_made);
    stories
}

/// The same, killed after so many stores, each of which has two entries.
fn cut_form(stores: usize) -> Vec<Story> {
    cut_form_at(2 * stores, false)
}

#[test]
fn a_kill_in_recovery_is_taken_and_counted() {
    let stories = cut_form(1);
    let recovery = stories[0].lives[1].len() - 1;
    for entries in 1..recovery {
        let mut again = stories.clone();
        again[0] = killed(&stories[0], entries, true);
        let good = check(&again).unwrap_or_else(|problem| panic!("{problem}"));
        let in_form = Fell::In {
            kind: Kind::Form,
            made: 1,
        };
        assert_eq!(good.counts.killed(|fell, _| fell == in_form), 1);
        assert_eq!(good.counts.killed(|_, _| true), 2);
        assert_eq!(good.counts.formed.len(), 1);
    }
}

#[test]
fn a_session_is_formed_at_word_3() {
    let formed = |stories: Vec<Story>| check(&stories).map(|good| good.counts.formed.len());
    assert_eq!(formed(cut_form(0)), Ok(0));
    assert_eq!(formed(cut_form(1)), Ok(1));
    // The store was begun, and it may have been made or not.
    assert_eq!(formed(cut_form_at(1, false)), Ok(0));
    assert_eq!(formed(cut_form_at(1, true)), Ok(1));
}

#[test]
fn a_file_that_the_stores_did_not_leave_is_found() {
    let mut stories = cut_form_at(1, true);
    if let Entry::Found(words) = &mut stories[0].lives[1][0] {
        words[PRIMARY] ^= 1 << 40;
    }
    finds(check(&stories).err().unwrap_or_default(), "word 3 is");
}

#[test]
fn a_wrong_recovered_word_is_found() {
    for word in 0..WORDS {
        let mut stories = cut_form(1);
        let record = |entry: &Entry| matches!(entry, Entry::Record(_));
        let at = find(&stories[0].lives[1], record);
        if let Entry::Record(words) = &mut stories[0].lives[1][at] {
            words[word] ^= 1;
        }
        let problem = check(&stories).err().unwrap_or_default();
        finds(problem, "not the one after the done changes");
    }
}

#[test]
fn answer_2_is_found() {
    let answer = Answer::Refused(Refusal::BadRecordOrSession);
    let changed = |s: &mut Story| {
        let at = find(&s.lives[0], is_form) + 1;
        let line = Vec::new();
        s.lives[0].insert(at, Entry::End { answer, line });
    };
    finds(problem(0, changed), "answers 2");
}

#[test]
fn another_answer_or_line_is_found() {
    let answer = |entry: &mut Entry, to: Answer| match entry {
        Entry::End { answer, .. } => *answer = to,
        other => panic!("no end: {other:?}"),
    };
    let attempted = |entry: &Entry| {
        matches!(
            entry,
            Entry::End {
                answer: Answer::Attempted,
                ..
            }
        )
    };
    let changed = problem(1, |s| {
        let at = find(&s.lives[0], attempted);
        answer(&mut s.lives[0][at], Answer::NoQuorum);
    });
    finds(changed, "the second program answers Attempted");

    let changed = problem(1, |s| {
        let at = find(&s.lives[0], |e| *e == Entry::Call(Call::WriteState)) + 1;
        if let Entry::End { line, .. } = &mut s.lives[0][at] {
            line[20] ^= 1;
        }
    });
    finds(changed, "another line");
}

#[test]
fn another_store_is_found() {
    let first_store = |s: &Story| find(&s.lives[0], is_form) + 1;
    let changed = problem(0, |s| {
        let at = first_store(s);
        s.lives[0].drain(at..at + 2);
    });
    finds(changed, "one after the other");
    let changed = problem(0, |s| {
        let at = first_store(s);
        if let Entry::Store { value, .. } = &mut s.lives[0][at] {
            *value ^= 1;
        }
    });
    finds(changed, "the second program stores");
    let changed = problem(0, |s| {
        let at = first_store(s);
        let end = at + find(&s.lives[0][at..], |e| matches!(e, Entry::End { .. }));
        s.lives[0].drain(end - 2..end);
    });
    finds(changed, "before its last store");
}

#[test]
fn a_life_without_recovery_is_found() {
    let changed = problem(0, |s| {
        let at = find(&s.lives[0], |e| *e == Entry::Call(Call::Recover));
        s.lives[0].drain(at..at + 3);
    });
    finds(changed, "begins with its one recovery");
}

#[test]
fn a_wrong_end_is_found() {
    let changed = problem(2, |s| s.file[PRIMARY] ^= 1 << 20);
    finds(changed, "the last file: word 3");
    let changed = problem(2, |s| {
        s.lives[0].pop();
    });
    finds(changed, "did not quit");
}

#[test]
fn a_line_that_no_head_wrote_is_found() {
    let stories = honest();
    let problem = check(&stories[..2]).err().unwrap_or_default();
    finds(problem, "no head wrote");
}

/// Heads 0 and 1 of two worlds: in one they form a session of all heads, in
/// the other one of both. Each log is right by itself.
#[test]
fn two_sessions_of_one_number_are_found() {
    let mut heads: Vec<Head> = (0..3).map(begin).collect();
    view(&mut heads, 1, 0x7, 0x1);
    let mut others: Vec<Head> = (0..3).map(begin).collect();
    view(&mut others, 1, 0x3, 0x2);
    heads[1] = others.remove(1);
    let stories: Vec<Story> = heads.into_iter().map(quit).collect();
    let chain = gone_through(&stories).map(|check| check.formed_chain());
    finds(
        chain.and_then(|c| c).err().unwrap_or_default(),
        "one number",
    );
    // The views show what was wrong with these worlds.
    finds(check(&stories).err().unwrap_or_default(), "two memberships");
}

/// The same with formed sessions that share no head: head 1 forms one of
/// itself alone with number 2, head 0 one with head 2 and number 3.
#[test]
fn sessions_without_a_shared_head_are_found() {
    let mut heads: Vec<Head> = (0..3).map(begin).collect();
    view(&mut heads, 1, 0x3, 0x3);
    view(&mut heads, 2, 0x2, 0x2);
    let mut others: Vec<Head> = (0..3).map(begin).collect();
    view(&mut others, 1, 0x5, 0x0);
    view(&mut others, 2, 0x5, 0x0);
    view(&mut others, 3, 0x5, 0x5);
    let stories = [others.remove(0), heads.remove(1)].map(quit);
    let chain = gone_through(&stories).map(|check| check.formed_chain());
    finds(
        chain.and_then(|c| c).err().unwrap_or_default(),
        "share no head",
    );
}

#[test]
fn an_idle_soak_is_found() {
    let missing = Counts::default().missing();
    assert_eq!(missing.as_deref(), Some("no kill in enter"));
}

#[test]
fn logs_read_back_as_they_were_written() {
    for story in honest().iter().chain(&cut_form(2)) {
        for life in &story.lives {
            let text: String = life.iter().map(|entry| entry.text() + "\n").collect();
            assert_eq!(read_all(&text).as_ref(), Ok(life));
            // A last line that was not written to its end is left out.
            let cut = &text[..text.len() - 2];
            assert_eq!(read_all(cut).as_deref(), Ok(&life[..life.len() - 1]));
        }
    }
}

#[test]
fn two_memberships_of_one_view_are_found() {
    let mut heads: Vec<Head> = (0..3).map(begin).collect();
    view(&mut heads, 1, 0x7, 0x0);
    view(&mut heads, 2, 0x1, 0x1);
    view(&mut heads, 2, 0x2, 0x0);
    let stories: Vec<Story> = heads.into_iter().map(quit).collect();
    finds(check(&stories).err().unwrap_or_default(), "two memberships");
}
