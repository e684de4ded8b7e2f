//! Records of every kind, by direct construction.

use crate::rng::Rng;
use second::group::{has, heads_in, size};
use second::record::{fresh, fresh_with_none, Group, FORMED, MARKS, NUMBER, PLACE, PRIMARY, VIEW};

/// The session numbers a case uses lie from `low` to `high`. With few numbers
/// the same number is met often.
#[derive(Clone, Copy, Debug)]
pub struct Scale {
    pub low: u64,
    pub high: u64,
}

const TOP: u64 = 0xffff_ffff;

pub fn scale(rng: &mut Rng) -> Scale {
    match rng.below(8) {
        0 => Scale { low: 0, high: 3 },
        1 | 2 => Scale { low: 0, high: 8 },
        3 => Scale { low: 0, high: 25 },
        4 => Scale {
            low: TOP - 20,
            high: TOP,
        },
        5 => {
            let low = rng.below(TOP - 40);
            Scale {
                low,
                high: low + 18,
            }
        }
        6 => Scale {
            low: TOP - 3,
            high: TOP,
        },
        _ => Scale { low: 0, high: TOP },
    }
}

impl Scale {
    pub fn number(&self, rng: &mut Rng) -> u64 {
        rng.range(self.low, self.high)
    }
}

pub fn session_word(heads: u16, number: u64) -> u64 {
    heads as u64 | (number << 16)
}

pub fn group(rng: &mut Rng) -> Group {
    let w0 = match rng.below(4) {
        0 => 0x001f,
        1 => 1 << rng.below(16),
        _ => rng.set(),
    };
    let w0 = if w0 == 0 { 0x8001 } else { w0 };
    let most = size(w0) as u64;
    let q = match rng.below(4) {
        0 | 1 => 1,
        2 => most,
        _ => rng.range(1, most),
    };
    let own = if rng.one_in(4) {
        rng.index(16)
    } else {
        rng.pick(&heads_in(w0))
    };
    Group {
        w0,
        q: q as u8,
        own,
    }
}

/// The set with own head and, if asked for, at least Q heads of W0.
pub fn set_for(rng: &mut Rng, group: Group, quorum: bool) -> u16 {
    let mut set = rng.set() | 1 << group.own;
    if rng.one_in(3) {
        set |= rng.set();
    }
    while quorum && size(set & group.w0) < group.q as u32 {
        set |= 1 << rng.pick(&heads_in(group.w0));
    }
    set
}

/// A whole record of the group with numbers of the scale.
pub fn whole_record(rng: &mut Rng, group: Group, scale: Scale) -> Vec<u64> {
    let mut record = vec![0; 52];
    record[0] = group.word();
    record[VIEW] = match rng.below(5) {
        0 => 0,
        1 => TOP,
        2 => rng.below(5),
        _ => rng.number() as u64,
    };
    let mut below: i64 = -1;
    let mut most = 0;
    if !rng.one_in(6) {
        let with_quorum = rng.one_in(2);
        let heads = set_for(rng, group, with_quorum);
        // Low in the scale more often, so that there is room for places.
        let number = scale.number(rng).min(scale.number(rng));
        let number = if rng.one_in(3) { scale.low } else { number };
        record[PRIMARY] = session_word(heads, number);
        for q in 0..16 {
            if has(heads, q) {
                record[FORMED + q] = record[PRIMARY];
            } else if number > 0 && !rng.one_in(3) {
                let low = scale.low.min(number - 1);
                let lower = if rng.one_in(3) {
                    number - 1
                } else {
                    rng.range(low, number - 1)
                };
                let with = set_for(rng, group, false) | 1 << q;
                record[FORMED + q] = session_word(with, lower);
            }
        }
        below = number as i64;
        most = number;
    }
    let used = match rng.below(5) {
        0 => 0,
        1 => 1,
        2 => rng.index(4),
        3 => rng.index(17),
        _ => 16,
    };
    let slots = shuffled(rng, 16);
    let mut numbers: Vec<u64> = Vec::new();
    for i in 0..used {
        let number = if rng.one_in(3) {
            (below + 1 + i as i64).max(1) as u64
        } else {
            scale.number(rng)
        };
        if number as i64 <= below || number < 1 || number > TOP || numbers.contains(&number) {
            continue;
        }
        numbers.push(number);
        let heads = set_for(rng, group, true);
        record[PLACE + slots[i]] = session_word(heads, number);
        let allowed = heads & !(1 << group.own);
        let marks = match rng.below(5) {
            0 => 0,
            1 => allowed,
            2 if allowed != 0 => allowed & !(1 << rng.pick(&heads_in(allowed))),
            _ => allowed & rng.next() as u16,
        };
        record[MARKS + slots[i]] = marks as u64;
        most = most.max(number);
    }
    record[NUMBER] = match rng.below(4) {
        0 => rng.range(most, TOP),
        1 => (most + rng.below(3)).min(TOP),
        _ => most,
    };
    record
}

pub fn shuffled(rng: &mut Rng, n: usize) -> Vec<usize> {
    let mut all: Vec<usize> = (0..n).collect();
    for i in (1..n).rev() {
        all.swap(i, rng.index(i + 1));
    }
    all
}

pub fn any_whole(rng: &mut Rng) -> Vec<u64> {
    let group = group(rng);
    let scale = scale(rng);
    whole_record(rng, group, scale)
}

fn group_of(record: &[u64]) -> Group {
    second::record::group_in(record[0]).expect("a generated record has a group")
}

/// A whole record with a last primary.
fn with_primary(rng: &mut Rng) -> Vec<u64> {
    loop {
        let record = any_whole(rng);
        if record[PRIMARY] != 0 {
            return record;
        }
    }
}

/// A whole record with a head outside its last primary, which is numbered
/// above 0.
fn with_outsider(rng: &mut Rng) -> (Vec<u64>, usize) {
    loop {
        let record = with_primary(rng);
        let heads = record[PRIMARY] as u16;
        if heads != 0xffff && record[PRIMARY] >> 16 > 0 {
            let q = rng.pick(&heads_in(!heads));
            return (record, q);
        }
    }
}

/// A whole record with a used place.
fn with_place(rng: &mut Rng) -> (Vec<u64>, usize) {
    loop {
        let record = any_whole(rng);
        let used: Vec<usize> = (0..16).filter(|&i| record[PLACE + i] != 0).collect();
        if !used.is_empty() {
            let i = rng.pick(&used);
            return (record, i);
        }
    }
}

/// A whole record with a free place.
fn with_free(rng: &mut Rng) -> (Vec<u64>, usize) {
    loop {
        let record = any_whole(rng);
        let free: Vec<usize> = (0..16).filter(|&i| record[PLACE + i] == 0).collect();
        if !free.is_empty() {
            let i = rng.pick(&free);
            return (record, i);
        }
    }
}

pub struct Kind {
    pub name: &'static str,
    /// Whether the record is whole, if its kind says so.
    pub whole: Option<bool>,
    pub make: fn(&mut Rng) -> Vec<u64>,
}

fn high_bit(rng: &mut Rng, from: u64) -> u64 {
    1 << rng.range(from, 63)
}

/// Every kind of record.
pub fn kinds() -> Vec<Kind> {
    let mut all: Vec<Kind> = Vec::new();
    let mut add = |name, whole, make| all.push(Kind { name, whole, make });
    add("fresh", Some(true), |rng| fresh(group(rng)));
    add("fresh with none", Some(true), |rng| fresh_with_none(group(rng)));
    add("whole", Some(true), any_whole);
    add("whole, again", Some(true), any_whole);
    add("word 0: bits above", Some(false), |rng| {
        let mut r = any_whole(rng);
        r[0] |= high_bit(rng, 32);
        r
    });
    add("word 0: W0 empty", Some(false), |rng| {
        let mut r = any_whole(rng);
        r[0] &= !0xffff;
        r
    });
    add("word 0: Q 0", Some(false), |rng| {
        let mut r = any_whole(rng);
        r[0] &= !0xff_0000;
        r
    });
    add("word 0: Q over the size of W0", Some(false), |rng| {
        let mut r = any_whole(rng);
        let over = rng.range(size(r[0] as u16) as u64 + 1, 255);
        let over = if rng.one_in(2) { size(r[0] as u16) as u64 + 1 } else { over };
        r[0] = r[0] & !0xff_0000 | over << 16;
        r
    });
    add("word 0: head over 15", Some(false), |rng| {
        let mut r = any_whole(rng);
        r[0] |= 1 << rng.range(28, 31);
        r
    });
    add("word 0: another head", None, |rng| {
        let mut r = any_whole(rng);
        r[0] = r[0] & !0xff00_0000 | rng.below(16) << 24;
        r
    });
    add("word 0: another group", None, |rng| {
        let mut r = any_whole(rng);
        r[0] = group(rng).word();
        r
    });
    add("word 1 over the limit", Some(false), |rng| {
        let mut r = any_whole(rng);
        r[VIEW] |= high_bit(rng, 32);
        r
    });
    add("word 2 over the limit", Some(false), |rng| {
        let mut r = any_whole(rng);
        r[NUMBER] |= high_bit(rng, 32);
        r
    });
    add("last primary: bits above", Some(false), |rng| {
        let mut r = any_whole(rng);
        r[PRIMARY] |= high_bit(rng, 48);
        r
    });
    add("last primary: no heads", Some(false), |rng| {
        let mut r = any_whole(rng);
        r[PRIMARY] = r[PRIMARY] & !0xffff | 0x10000;
        r
    });
    add("last primary without own head", Some(false), |rng| {
        let mut r = with_primary(rng);
        r[PRIMARY] &= !(1 << group_of(&r).own);
        r
    });
    add("last primary without own head, formed set", Some(false), |rng| loop {
        let mut r = with_primary(rng);
        let own = group_of(&r).own;
        r[PRIMARY] &= !(1 << own);
        if r[PRIMARY] & 0xffff != 0 {
            for q in heads_in(r[PRIMARY] as u16) {
                r[FORMED + q] = r[PRIMARY];
            }
            r[FORMED + own] = 0;
            return r;
        }
    });
    add("last primary of another number", None, |rng| {
        let mut r = with_primary(rng);
        let number = (r[PRIMARY] >> 16) + rng.below(4);
        r[PRIMARY] = (r[PRIMARY] & 0xffff) | (number.min(TOP) << 16);
        r
    });
    add("last primary of other heads", None, |rng| {
        let mut r = with_primary(rng);
        r[PRIMARY] = r[PRIMARY] & !0xffff | (rng.set() | 1 << group_of(&r).own) as u64;
        r
    });
    add("last primary gone", None, |rng| {
        let mut r = any_whole(rng);
        r[PRIMARY] = 0;
        r
    });
    add("last formed: bits above", Some(false), |rng| {
        let mut r = any_whole(rng);
        r[FORMED + rng.index(16)] |= high_bit(rng, 48);
        r
    });
    add("last formed: no heads", Some(false), |rng| {
        let mut r = any_whole(rng);
        let q = rng.index(16);
        r[FORMED + q] = r[FORMED + q] & !0xffff | 0x10000;
        r
    });
    add("last formed is not last primary", Some(false), |rng| loop {
        let mut r = with_primary(rng);
        let q = rng.pick(&heads_in(r[PRIMARY] as u16));
        r[FORMED + q] = match rng.below(4) {
            0 => 0,
            1 => r[FORMED + q] ^ (1 << rng.below(16)),
            2 => r[FORMED + q] ^ (1 << rng.range(16, 47)),
            _ => rng.next() >> 16,
        };
        if r[FORMED + q] != r[PRIMARY] {
            return r;
        }
    });
    add("last formed without own head", Some(false), |rng| {
        let (mut r, q) = with_outsider(rng);
        let own = group_of(&r).own;
        let heads = (rng.set() | 1 << q) & !(1 << own);
        r[FORMED + q] = session_word(heads, (r[PRIMARY] >> 16) - 1);
        r
    });
    add("last formed without its head", Some(false), |rng| {
        let (mut r, q) = with_outsider(rng);
        let own = group_of(&r).own;
        let heads = (rng.set() | 1 << own) & !(1 << q);
        r[FORMED + q] = session_word(heads, (r[PRIMARY] >> 16) - 1);
        r
    });
    add("last formed not lower", Some(false), |rng| {
        let (mut r, q) = with_outsider(rng);
        let own = group_of(&r).own;
        let heads = rng.set() | 1 << own | 1 << q;
        let n = r[PRIMARY] >> 16;
        let number = if rng.one_in(2) { n } else { rng.range(n, TOP) };
        r[FORMED + q] = session_word(heads, number);
        r[NUMBER] = r[NUMBER].max(number);
        r
    });
    add("last formed without last primary", Some(false), |rng| {
        let mut r = fresh_with_none(group(rng));
        let own = group_of(&r).own;
        let q = rng.index(16);
        r[FORMED + q] = session_word(rng.set() | 1 << own | 1 << q, rng.below(3));
        r[NUMBER] = rng.range(3, TOP);
        r
    });
    add("place: bits above", Some(false), |rng| {
        let (mut r, i) = with_place(rng);
        r[PLACE + i] |= high_bit(rng, 48);
        r
    });
    add("place: bits above, low number", Some(false), |rng| {
        let mut r = any_whole(rng);
        let i = rng.index(16);
        let number = (r[PRIMARY] >> 16).saturating_sub(rng.below(3));
        r[PLACE + i] = session_word(rng.set(), number) | high_bit(rng, 48);
        r
    });
    add("place: no heads", Some(false), |rng| {
        let mut r = any_whole(rng);
        let i = rng.index(16);
        r[PLACE + i] = r[PLACE + i] & !0xffff | 0x10000;
        r
    });
    add("place without own head", Some(false), |rng| {
        let (mut r, i) = with_place(rng);
        r[PLACE + i] &= !(1 << group_of(&r).own);
        r
    });
    add("place with too few heads of W0", Some(false), |rng| loop {
        let (mut r, i) = with_place(rng);
        let group = group_of(&r);
        let mut heads = rng.set() | 1 << group.own;
        while size(heads & group.w0) >= group.q as u32 {
            heads &= !(1 << rng.pick(&heads_in(heads & group.w0)));
        }
        if has(heads, group.own) {
            r[PLACE + i] = r[PLACE + i] & !0xffff | heads as u64;
            r[MARKS + i] &= (heads & !(1 << group.own)) as u64;
            return r;
        }
    });
    add("two places of one number", Some(false), |rng| {
        let (mut r, i) = with_place(rng);
        let group = group_of(&r);
        let j = (i + 1 + rng.index(15)) % 16;
        let heads = set_for(rng, group, true);
        r[PLACE + j] = session_word(heads, r[PLACE + i] >> 16);
        r[MARKS + j] = 0;
        r
    });
    add("place numbered 0", Some(false), |rng| {
        let mut r = any_whole(rng);
        let group = group_of(&r);
        let i = rng.index(16);
        r[PLACE + i] = set_for(rng, group, true) as u64;
        r[MARKS + i] = 0;
        r
    });
    add("place not above last primary", Some(false), |rng| {
        let mut r = with_primary(rng);
        let group = group_of(&r);
        let n = r[PRIMARY] >> 16;
        let number = if rng.one_in(2) { n } else { rng.range(0, n) };
        let i = rng.index(16);
        r[PLACE + i] = session_word(set_for(rng, group, true), number);
        let any = rng_word(rng.next());
        r[MARKS + i] = rng.pick(&[0, 1, any]);
        r
    });
    add("place above word 2", Some(false), |rng| loop {
        let (mut r, i) = with_place(rng);
        let n = r[PLACE + i] >> 16;
        let heads = r[PLACE + i] & 0xffff;
        let more = r[NUMBER] + 1 + rng.below(3);
        if rng.one_in(2) {
            r[NUMBER] = n - 1;
            return r;
        } else if more <= TOP {
            r[PLACE + i] = heads | more << 16;
            return r;
        }
    });
    add("word 2 below last primary", Some(false), |rng| loop {
        let mut r = with_primary(rng);
        let n = r[PRIMARY] >> 16;
        if n > 0 {
            r[NUMBER] = rng.below(n);
            return r;
        }
    });
    add("word 2 zero", None, |rng| {
        let mut r = any_whole(rng);
        r[NUMBER] = 0;
        r
    });
    add("marks of own head", Some(false), |rng| {
        let (mut r, i) = with_place(rng);
        r[MARKS + i] |= 1 << group_of(&r).own;
        r
    });
    add("marks outside the place", Some(false), |rng| loop {
        let (mut r, i) = with_place(rng);
        let outside = !(r[PLACE + i] as u16);
        if outside != 0 {
            r[MARKS + i] |= 1 << rng.pick(&heads_in(outside));
            return r;
        }
    });
    add("marks: bits above", Some(false), |rng| {
        let (mut r, i) = with_place(rng);
        r[MARKS + i] |= high_bit(rng, 16);
        r
    });
    add("marks of a free place", Some(false), |rng| {
        let (mut r, i) = with_free(rng);
        r[MARKS + i] = 1 << rng.below(64);
        r
    });
    add("garbage in all words", None, |rng| {
        (0..52).map(|_| rng_word(rng.next())).collect()
    });
    add("small garbage in all words", None, |rng| {
        let mut r: Vec<u64> = (0..52).map(|_| rng.next() & 0x3_0007).collect();
        r[0] = group(rng).word();
        r
    });
    add("garbage after word 0", None, |rng| {
        let mut r: Vec<u64> = (0..52).map(|_| rng.next() >> 16).collect();
        r[0] = group(rng).word();
        r
    });
    add("one bit off", None, |rng| {
        let mut r = any_whole(rng);
        r[rng.index(52)] ^= 1 << rng.below(64);
        r
    });
    add("one low bit off", None, |rng| {
        let mut r = any_whole(rng);
        r[rng.index(52)] ^= 1 << rng.below(20);
        r
    });
    add("a word of any value", None, |rng| {
        let mut r = any_whole(rng);
        r[rng.index(52)] = rng.next();
        r
    });
    add("two words swapped", None, |rng| {
        let mut r = any_whole(rng);
        let (i, j) = (rng.index(52), rng.index(52));
        r.swap(i, j);
        r
    });
    add("two records in one", None, |rng| {
        let group = group(rng);
        let scale = scale(rng);
        let a = whole_record(rng, group, scale);
        let b = whole_record(rng, group, scale);
        let at = rng.index(53);
        [&a[..at], &b[at..]].concat()
    });
    add("all words zero", Some(false), |_| vec![0; 52]);
    add("all bits set", Some(false), |_| vec![u64::MAX; 52]);
    add("a word short", Some(false), |rng| {
        let mut r = any_whole(rng);
        r.pop();
        r
    });
    add("a word long", Some(false), |rng| {
        let mut r = any_whole(rng);
        r.push(0);
        r
    });
    add("no words", Some(false), |_| Vec::new());
    add("another length", Some(false), |rng| loop {
        let n = rng.index(120);
        if n != 52 {
            let mut r = any_whole(rng);
            r.resize(n, 0);
            return r;
        }
    });
    all
}

fn rng_word(n: u64) -> u64 {
    // Often with few bits above 47.
    if n & 1 == 1 {
        n
    } else {
        n >> 16
    }
}
