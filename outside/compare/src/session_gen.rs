//! Records with sessions that fit them, by direct construction, and damage.

use crate::record_gen::{group, scale, session_word, set_for, shuffled, whole_record, Scale};
use crate::rng::Rng;
use second::group::{has, heads_in, size};
use second::head_session::{HeadSession, Held, Stage};
use second::lines::{rules_4_to_7, State};
use second::record::{Group, FORMED, MARKS, NUMBER, PLACE, PRIMARY, VIEW};

const TOP: u64 = 0xffff_ffff;

/// A record and a session.
#[derive(Clone)]
pub struct Case {
    pub record: Vec<u64>,
    pub session: HeadSession,
    pub own: usize,
}

/// What kind of session a case has.
#[derive(Clone, Copy, PartialEq, Eq, Debug)]
pub enum Want {
    None,
    Undecided,
    /// Undecided, with all states heard.
    Ready,
    Closed,
    Attempted,
    /// Attempted, with all attempts heard.
    Complete,
    Formed,
}

pub const WANTS: [Want; 7] = [
    Want::None,
    Want::Undecided,
    Want::Ready,
    Want::Closed,
    Want::Attempted,
    Want::Complete,
    Want::Formed,
];

/// A state of q that keeps the line rules, made as far as can be from the
/// sessions of the pool.
pub fn related_state(rng: &mut Rng, q: usize, pool: &[u64], scale: Scale) -> State {
    let own = 1u64 << q;
    let known: Vec<u64> = pool.iter().copied().filter(|w| w & own != 0).collect();
    let last_primary = if rng.one_in(6) {
        0
    } else if !known.is_empty() && !rng.one_in(3) {
        rng.pick(&known)
    } else {
        let number = scale.number(rng).min(scale.number(rng));
        session_word(rng.set() | 1 << q, number)
    };
    let mut last_formed = vec![0u64; 16];
    let primary_number = if last_primary == 0 {
        -1
    } else {
        (last_primary >> 16) as i64
    };
    for h in 0..16 {
        if last_primary >> h & 1 == 1 {
            last_formed[h] = last_primary;
            continue;
        }
        let fitting: Vec<u64> = known
            .iter()
            .copied()
            .filter(|w| w >> h & 1 == 1 && ((w >> 16) as i64) < primary_number)
            .collect();
        if !fitting.is_empty() && !rng.one_in(3) {
            last_formed[h] = rng.pick(&fitting);
        } else if primary_number > 0 && rng.one_in(2) {
            let low = scale.low.min(primary_number as u64 - 1);
            let number = rng.range(low, primary_number as u64 - 1);
            last_formed[h] = session_word(rng.set() | 1 << q | 1 << h, number);
        }
    }
    let mut places: Vec<u64> = Vec::new();
    let all = rng.one_in(3);
    for &w in &known {
        if (w >> 16) as i64 > primary_number && w >> 16 >= 1 && (all || !rng.one_in(3)) {
            places.push(w);
        }
    }
    for _ in 0..rng.pick(&[0, 0, 0, 1, 2]) {
        let number = scale.number(rng);
        if number as i64 > primary_number && number >= 1 {
            places.push(session_word(rng.set() | 1 << q, number));
        }
    }
    places.sort_by_key(|w| w >> 16);
    places.dedup_by_key(|w| *w >> 16);
    while places.len() > 16 {
        let at = rng.index(places.len());
        places.remove(at);
    }
    let mut most = primary_number.max(0) as u64;
    for w in &places {
        most = most.max(w >> 16);
    }
    let number = match rng.below(6) {
        0 => rng.range(most, TOP),
        1 => scale.number(rng).max(most),
        _ => most,
    };
    let state = State {
        number: number as u32,
        last_primary,
        last_formed,
        places,
    };
    assert_eq!(rules_4_to_7(q, &state), Ok(()), "{state:x?}");
    state
}

/// The sessions of a record, some of them with other heads or numbers, and
/// some more.
fn pool(rng: &mut Rng, record: &[u64], scale: Scale) -> Vec<u64> {
    let mut pool: Vec<u64> = Vec::new();
    for &word in &record[PRIMARY..PLACE + 16] {
        if word != 0 && !pool.contains(&word) {
            pool.push(word);
        }
    }
    let from = pool.clone();
    for &word in &from {
        match rng.below(8) {
            0 => pool.push(word ^ 1 << rng.below(16)),
            1 if word >> 16 < TOP => pool.push(word + 0x10000),
            2 => pool.push(word | rng.set() as u64),
            _ => {}
        }
    }
    let own = 1u16 << (record[0] >> 24 & 15);
    for _ in 0..rng.below(4) {
        pool.push(session_word(rng.set() | own, scale.number(rng)));
    }
    pool.retain(|w| w & 0xffff != 0);
    pool
}

/// The heads of a view: own head, and others near the sets the record knows.
fn members(rng: &mut Rng, record: &[u64], group: Group) -> u16 {
    let own = 1u16 << group.own;
    let used: Vec<u64> = record[PRIMARY..PLACE + 16]
        .iter()
        .copied()
        .filter(|&w| w != 0)
        .collect();
    let near = if used.is_empty() {
        group.w0
    } else {
        rng.pick(&used) as u16
    };
    own | match rng.below(6) {
        0 => 0,
        1 => near,
        2 => near & rng.set(),
        3 => near | group.w0,
        4 => group.w0,
        _ => rng.set(),
    }
}

/// A record and a session that fits it.
pub fn case(rng: &mut Rng, want: Want) -> Case {
    let group = group(rng);
    let scale = scale(rng);
    let record = whole_record(rng, group, scale);
    case_of(rng, want, record, group, scale, None)
}

/// A case of this record. The record is changed where the session needs it.
fn case_of(
    rng: &mut Rng,
    want: Want,
    mut record: Vec<u64>,
    group: Group,
    scale: Scale,
    given: Option<u16>,
) -> Case {
    let own = group.own;
    let mut session = HeadSession::none();
    if want == Want::None {
        return Case {
            record,
            session,
            own,
        };
    }
    if record[VIEW] == 0 {
        record[VIEW] = rng.range(1, 4);
    }
    session.view = record[VIEW] as u32;
    let mut m = given.unwrap_or_else(|| members(rng, &record, group));
    let pool = pool(rng, &record, scale);

    if matches!(want, Want::Attempted | Want::Complete | Want::Formed) {
        // A number above all others in the record is needed.
        while size(m & group.w0) < group.q as u32 {
            m |= 1 << rng.pick(&heads_in(group.w0));
        }
        for word in PRIMARY..PLACE + 16 {
            let number = record[word] >> 16;
            if record[word] != 0 && number == TOP {
                return case(rng, want);
            }
        }
        let most = (PRIMARY..PLACE + 16).map(|w| record[w] >> 16).max();
        let least = most.unwrap_or(0) + 1;
        let number = if record[NUMBER] >= least {
            record[NUMBER]
        } else {
            least
        };
        record[NUMBER] = number;
        let word = session_word(m, number);
        if want == Want::Formed {
            record[PRIMARY] = word;
            for h in heads_in(m) {
                record[FORMED + h] = word;
            }
            record[PLACE..MARKS + 16].fill(0);
        } else {
            let free: Vec<usize> = (0..16).filter(|&i| record[PLACE + i] == 0).collect();
            let at = if free.is_empty() {
                rng.index(16)
            } else {
                rng.pick(&free)
            };
            record[PLACE + at] = word;
            record[MARKS + at] = 0;
        }
    }

    session.members = m;
    session.states_heard = match want {
        Want::Undecided => m & rng.next() as u16 | 1 << own,
        _ => m,
    };
    session.attempts_heard = match want {
        Want::Complete | Want::Formed => m,
        _ => m & rng.next() as u16 | 1 << own,
    };
    session.stage = match want {
        Want::None => Stage::None,
        Want::Undecided | Want::Ready => Stage::Undecided,
        Want::Closed => Stage::Closed,
        Want::Attempted | Want::Complete => Stage::Attempted,
        Want::Formed => Stage::Formed,
    };
    for q in heads_in(session.states_heard) {
        if q != own {
            session.held[q] = Held::of(&related_state(rng, q, &pool, scale));
        }
    }
    Case {
        record,
        session,
        own,
    }
}

/// A case whose 16 places are used and whose view passes every test, as Q is
/// the size of W0 and W0 is in M. Most places have a head outside M, so that
/// few are cleared.
pub fn full_case(rng: &mut Rng) -> Case {
    let w0 = 1u16 << rng.below(16) | 1 << rng.below(16);
    let own = rng.index(16);
    let group = Group {
        w0,
        q: size(w0) as u8,
        own,
    };
    let base = if rng.one_in(4) {
        TOP - 16 - rng.below(3)
    } else {
        rng.below(20)
    };
    let scale = Scale {
        low: base,
        high: (base + 18).min(TOP),
    };
    let m = loop {
        let m = rng.set() & rng.set() | w0 | 1 << own;
        if m != 0xffff {
            break m;
        }
    };
    let outside = heads_in(!m);
    let mut record = second::record::fresh_with_none(group);
    let slots = shuffled(rng, 16);
    let few = rng.one_in(3);
    for i in 0..16 {
        if few && rng.one_in(8) {
            continue;
        }
        let mut heads = set_for(rng, group, true);
        if !rng.one_in(12) {
            heads |= 1 << rng.pick(&outside);
        }
        if rng.one_in(2) {
            heads &= !(m & !w0 & !(1 << own));
        }
        let at = slots[i];
        record[PLACE + at] = session_word(heads, base + 1 + i as u64);
        if rng.one_in(4) {
            let allowed = heads & !(1 << own);
            record[MARKS + at] = (allowed & rng.set() & m) as u64;
        }
    }
    let heads = rng.set() | 1 << own;
    record[PRIMARY] = session_word(heads, base);
    for q in heads_in(heads) {
        record[FORMED + q] = record[PRIMARY];
    }
    record[NUMBER] = (base + 16 + rng.below(2)).min(TOP);
    if !second::record::whole(&record) {
        return full_case(rng);
    }
    let mut case = case_of(rng, Want::Ready, record, group, scale, Some(m));
    // The others list the places they are in, most of the time, and have
    // formed nothing later.
    for q in heads_in(m) {
        if q == own || rng.one_in(8) {
            continue;
        }
        let mut listed: Vec<u64> = case.record[PLACE..PLACE + 16]
            .iter()
            .copied()
            .filter(|&w| w >> q & 1 == 1)
            .collect();
        listed.sort_by_key(|w| w >> 16);
        let mut state = State {
            number: case.record[NUMBER] as u32,
            last_primary: 0,
            last_formed: vec![0; 16],
            places: listed,
        };
        if has(heads, q) {
            state.last_primary = case.record[PRIMARY];
            for h in heads_in(heads) {
                state.last_formed[h] = case.record[PRIMARY];
            }
        }
        if rules_4_to_7(q, &state).is_ok() {
            case.session.held[q] = Held::of(&state);
        }
    }
    case
}

/// A case in which the decision hangs on few sessions: the highest primary is
/// near M, some primaries have its number and other heads, and the places are
/// few, some of them with own head as the only one of M.
pub fn sharp_case(rng: &mut Rng) -> Case {
    let w0 = loop {
        let w0 = rng.set() | rng.set();
        if size(w0) >= 3 {
            break w0;
        }
    };
    let q = rng.pick(&[1, 1, 2]);
    let own = rng.index(16);
    let group = Group { w0, q, own };
    let m = loop {
        let m = rng.set() & !(1 << rng.below(16)) | 1 << own;
        if size(m & w0) >= q as u32 && m != 0xffff {
            break m;
        }
    };
    let outside = heads_in(!m);
    let base = if rng.one_in(5) {
        TOP - 3 - rng.below(4)
    } else {
        rng.below(5)
    };
    // Heads of a session that M may pass or just not pass.
    let near = |rng: &mut Rng, with: u16| -> u16 {
        let mut heads = with | m & rng.set();
        for _ in 0..rng.below(size(heads) as u64 + 3) {
            heads |= 1 << rng.pick(&outside);
        }
        heads
    };
    let mut record = second::record::fresh_with_none(group);
    record[VIEW] = rng.range(1, 9);
    let primary = near(rng, 1 << own);
    record[PRIMARY] = session_word(primary, base);
    for h in heads_in(primary) {
        record[FORMED + h] = record[PRIMARY];
    }
    let slots = shuffled(rng, 16);
    let mut most = base;
    for i in 0..rng.index(4) {
        let number = base + 1 + i as u64;
        if number > TOP {
            break;
        }
        let mut heads = 1 << own;
        match rng.below(3) {
            0 => heads |= 1 << rng.pick(&outside),
            1 => {
                for _ in 0..rng.range(1, 4) {
                    heads |= 1 << rng.pick(&outside);
                }
            }
            _ => heads = near(rng, heads),
        }
        if size(heads & w0) < q as u32 {
            continue;
        }
        record[PLACE + slots[i]] = session_word(heads, number);
        let allowed = heads & !(1 << own);
        // With all heads outside M marked, hearing M may clear the place.
        record[MARKS + slots[i]] = match rng.below(3) {
            0 => 0,
            1 => allowed & !m,
            _ => allowed & rng.next() as u16,
        } as u64;
        most = number;
    }
    record[NUMBER] = most;
    assert!(second::record::whole(&record), "{record:x?}");

    let mut session = HeadSession::none();
    session.stage = Stage::Undecided;
    session.view = record[VIEW] as u32;
    session.members = m;
    session.states_heard = m;
    session.attempts_heard = m & rng.next() as u16 | 1 << own;
    for h in heads_in(m & !(1 << own)) {
        let own_primary = record[PRIMARY];
        let last_primary = match rng.below(6) {
            0 | 1 if has(primary, h) => own_primary,
            // The same number as own last primary's or one more, with other
            // heads, own head among them or not.
            2 => session_word(near(rng, 1 << h), base),
            3 => session_word(near(rng, 1 << h) & !(1 << own), base),
            4 if base < TOP => session_word(near(rng, 1 << h), base + 1),
            5 if base < TOP => session_word(near(rng, 1 << h) & !(1 << own), base + 1),
            _ if has(primary, h) => own_primary,
            _ => 0,
        };
        let mut last_formed = vec![0; 16];
        for g in heads_in(last_primary as u16) {
            last_formed[g] = last_primary;
        }
        let mut places = Vec::new();
        for i in 0..16 {
            let word = record[PLACE + i];
            if word >> h & 1 == 1 && !rng.one_in(5) {
                places.push(word);
            }
        }
        if rng.one_in(6) && base + 5 <= TOP {
            places.push(session_word(near(rng, 1 << h), base + rng.range(2, 5)));
        }
        places.retain(|w| last_primary == 0 || w >> 16 > last_primary >> 16);
        places.sort_by_key(|w| w >> 16);
        places.dedup_by_key(|w| *w >> 16);
        let least = places.last().copied().unwrap_or(0).max(last_primary) >> 16;
        let state = State {
            number: least.max(base) as u32,
            last_primary,
            last_formed,
            places,
        };
        assert_eq!(rules_4_to_7(h, &state), Ok(()), "{state:x?}");
        session.held[h] = Held::of(&state);
    }
    Case {
        record,
        session,
        own,
    }
}

// ---------------------------------------------------------------- damage

/// Changes one word of a held state.
fn damage_held(rng: &mut Rng, held: &mut Held) {
    let word: &mut u64 = match rng.below(5) {
        0 => {
            held.number = match rng.below(3) {
                0 => 0,
                1 => held.number.wrapping_sub(1),
                _ => rng.number(),
            };
            return;
        }
        1 => {
            held.count = match rng.below(4) {
                0 => held.count.wrapping_add(1),
                1 => held.count.wrapping_sub(1),
                2 => 17,
                _ => rng.next() as u8,
            };
            return;
        }
        2 => &mut held.last_primary,
        3 => &mut held.last_formed[rng.index(16)],
        _ => &mut held.places[rng.index(16)],
    };
    *word = match rng.below(5) {
        0 => 0,
        1 => *word ^ 1 << rng.below(16),
        2 => *word ^ 1 << rng.range(16, 47),
        3 => *word ^ 1 << rng.range(48, 63),
        _ => rng.next() >> 16,
    };
}

/// A record and session of view 0, as if it had been entered.
pub fn view_zero(case: &mut Case) {
    if let Some(word) = case.record.get_mut(VIEW) {
        *word = 0;
    }
    case.session.view = 0;
}

/// Changes something in the session.
pub fn damage_session(rng: &mut Rng, session: &mut HeadSession) {
    match rng.below(9) {
        0 => {
            session.stage = rng.pick(&[
                Stage::None,
                Stage::Undecided,
                Stage::Closed,
                Stage::Attempted,
                Stage::Formed,
            ])
        }
        1 => {
            session.view = match rng.below(4) {
                0 => 0,
                1 => session.view.wrapping_add(1),
                2 => session.view.wrapping_sub(1),
                _ => rng.next() as u32,
            }
        }
        2 => session.members ^= 1 << rng.below(16),
        3 => session.states_heard ^= 1 << rng.below(16),
        4 => session.attempts_heard ^= 1 << rng.below(16),
        5 => {
            session.members = rng.set();
            session.states_heard = session.members;
            session.attempts_heard = session.members;
        }
        6 | 7 => {
            let heard = heads_in(session.states_heard);
            if !heard.is_empty() {
                let q = rng.pick(&heard);
                damage_held(rng, &mut session.held[q]);
            }
        }
        _ => {
            let q = rng.index(16);
            damage_held(rng, &mut session.held[q]);
        }
    }
}

/// Changes something in the record.
pub fn damage_record(rng: &mut Rng, record: &mut Vec<u64>) {
    if record.is_empty() {
        return;
    }
    let at = rng.index(record.len());
    match rng.below(8) {
        0 => record[at] ^= 1 << rng.below(64),
        1 | 2 => record[at] ^= 1 << rng.below(20),
        3 => record[at] = rng.next() >> 16,
        4 => record[at] = 0,
        5 => {
            record.pop();
        }
        6 => record.push(0),
        _ => {
            let other = rng.index(record.len());
            record.swap(at, other);
        }
    }
}
