//! Lines of every kind: valid ones, each single break of a rule, damage.

use crate::rng::Rng;
use second::lines::{characters, write, Frame, State};

/// What `second` has to make of a generated line.
#[derive(Clone, Copy, PartialEq, Eq, Debug)]
pub enum Expect {
    Attempt,
    State(usize),
    /// The first rule broken.
    Rule(u8),
    Any,
}

pub struct Kind {
    pub name: &'static str,
    pub expect: Expect,
    /// Makes the characters of the line, with its newline.
    pub make: fn(&mut Rng) -> Vec<u8>,
}

/// A state the line rules allow, with this many places, and its sender.
pub fn valid_state(rng: &mut Rng, count: usize) -> (u8, State) {
    let sender = rng.below(16) as u8;
    (sender, valid_state_of(rng, sender, count))
}

/// A state the line rules allow, of this sender with this many places.
pub fn valid_state_of(rng: &mut Rng, sender: u8, count: usize) -> State {
    let own = 1u16 << sender;
    let mut number: u64;
    let mut last_primary = 0u64;
    let mut last_formed = vec![0u64; 16];
    let mut low: u64 = 0;
    if rng.one_in(6) {
        number = if rng.one_in(2) { 0 } else { rng.number() as u64 };
    } else {
        // Room above for the places.
        let n = (rng.number() as u64).min(0xffff_ffff - count as u64);
        let heads = rng.set() | own;
        last_primary = heads as u64 | (n << 16);
        for q in 0..16u16 {
            if heads >> q & 1 == 1 {
                last_formed[q as usize] = last_primary;
            } else if n > 0 && !rng.one_in(3) {
                let lower = match rng.below(3) {
                    0 => n - 1,
                    1 => 0,
                    _ => rng.below(n),
                };
                let with = rng.set() | own | 1 << q;
                last_formed[q as usize] = with as u64 | (lower << 16);
            }
        }
        low = n;
        number = n;
    }
    let mut places = Vec::new();
    let mut last = low;
    for i in 0..count {
        let left = (count - 1 - i) as u64;
        let most = 0xffff_ffff - left;
        let n = match rng.below(4) {
            0 | 1 => last + 1,
            2 => rng.range(last + 1, (last + 5).min(most)),
            _ => rng.range(last + 1, (last + (1 << 28)).min(most)),
        };
        let heads = rng.set() | own;
        places.push(heads as u64 | (n << 16));
        last = n;
    }
    if count > 0 {
        number = number.max(last);
    }
    if rng.one_in(3) {
        number = rng.range(number, 0xffff_ffff);
    }
    State {
        number: number as u32,
        last_primary,
        last_formed,
        places,
    }
}

pub fn view(rng: &mut Rng) -> u32 {
    rng.number().max(1)
}

/// The bytes of the frame in a line.
pub fn bytes_of(line: &[u8]) -> Vec<u8> {
    let digit = |c: u8| (c as char).to_digit(16).unwrap_or(0) as u8;
    line[..line.len() - 1]
        .chunks(2)
        .map(|d| digit(d[0]) * 16 + digit(d[1]))
        .collect()
}

pub fn attempt(rng: &mut Rng) -> Vec<u8> {
    let view = view(rng);
    let sender = rng.below(16) as u8;
    write(&Frame::Attempt { view, sender })
}

pub fn state_line(rng: &mut Rng, sender: u8, state: State) -> Vec<u8> {
    let view = view(rng);
    write(&Frame::State {
        view,
        sender,
        state,
    })
}

pub fn state_with(rng: &mut Rng, count: usize) -> Vec<u8> {
    let (sender, state) = valid_state(rng, count);
    state_line(rng, sender, state)
}

pub fn state(rng: &mut Rng) -> Vec<u8> {
    let count = match rng.below(3) {
        0 => 0,
        1 => rng.index(4),
        _ => rng.index(17),
    };
    state_with(rng, count)
}

pub fn valid(rng: &mut Rng) -> Vec<u8> {
    if rng.one_in(3) {
        attempt(rng)
    } else {
        state(rng)
    }
}

// ------------------------------------------------------------- rule 1

fn with_byte(rng: &mut Rng, byte: u8) -> Vec<u8> {
    let mut line = valid(rng);
    let digits = line.len() - 1;
    let at = match rng.below(4) {
        0 => 0,
        1 => digits - 1,
        _ => rng.index(digits),
    };
    line[at] = byte;
    line
}

fn neighbour_of_digits(rng: &mut Rng) -> Vec<u8> {
    let byte = rng.pick(b"/:`g@G");
    with_byte(rng, byte)
}

fn upper_case(rng: &mut Rng) -> Vec<u8> {
    loop {
        let mut line = valid(rng);
        let letters: Vec<usize> = (0..line.len())
            .filter(|&i| line[i].is_ascii_lowercase())
            .collect();
        if letters.is_empty() {
            continue;
        }
        if rng.one_in(2) {
            line.make_ascii_uppercase();
        } else {
            let at = rng.pick(&letters);
            line[at] = line[at].to_ascii_uppercase();
        }
        return line;
    }
}

fn zero_byte(rng: &mut Rng) -> Vec<u8> {
    with_byte(rng, 0)
}

fn zero_byte_added(rng: &mut Rng) -> Vec<u8> {
    let mut line = valid(rng);
    let at = if rng.one_in(2) {
        line.len() - 1
    } else {
        rng.index(line.len())
    };
    line.insert(at, 0);
    line
}

fn high_byte(rng: &mut Rng) -> Vec<u8> {
    let byte = rng.range(0x80, 0xff) as u8;
    with_byte(rng, byte)
}

fn carriage_return(rng: &mut Rng) -> Vec<u8> {
    let mut line = valid(rng);
    let at = line.len() - 1;
    line.insert(at, b'\r');
    line
}

fn carriage_return_inside(rng: &mut Rng) -> Vec<u8> {
    with_byte(rng, b'\r')
}

fn blanks(rng: &mut Rng) -> Vec<u8> {
    let mut line = valid(rng);
    let byte = rng.pick(b" \t");
    let at = match rng.below(3) {
        0 => 0,
        1 => line.len() - 1,
        _ => rng.index(line.len()),
    };
    line.insert(at, byte);
    line
}

fn prefix_0x(rng: &mut Rng) -> Vec<u8> {
    let mut line = b"0x".to_vec();
    line.extend(valid(rng));
    line
}

// ------------------------------------------------------------- rule 2

fn other_kind(rng: &mut Rng) -> Vec<u8> {
    let mut bytes = bytes_of(&valid(rng));
    bytes[0] = match rng.below(4) {
        0 => 0,
        1 => 3,
        2 => rng.range(3, 255) as u8,
        _ => bytes[0] ^ (1 << rng.range(2, 7)),
    };
    characters(&bytes)
}

fn kinds_swapped(rng: &mut Rng) -> Vec<u8> {
    let mut bytes = bytes_of(&valid(rng));
    bytes[0] = 3 - bytes[0];
    characters(&bytes)
}

fn odd_short(rng: &mut Rng) -> Vec<u8> {
    let mut line = valid(rng);
    let at = if rng.one_in(2) {
        line.len() - 2
    } else {
        rng.index(line.len() - 1)
    };
    line.remove(at);
    line
}

fn odd_long(rng: &mut Rng) -> Vec<u8> {
    let mut line = valid(rng);
    let at = if rng.one_in(2) {
        line.len() - 1
    } else {
        1 + rng.index(line.len() - 1)
    };
    line.insert(at, b'0');
    line
}

fn byte_short(rng: &mut Rng) -> Vec<u8> {
    let mut bytes = bytes_of(&valid(rng));
    bytes.pop();
    characters(&bytes)
}

fn byte_long(rng: &mut Rng) -> Vec<u8> {
    let mut bytes = bytes_of(&valid(rng));
    bytes.push(rng.pick(&[0, 1, 255]));
    characters(&bytes)
}

fn truncated(rng: &mut Rng) -> Vec<u8> {
    // A state with something in each place stays too short wherever cut, as
    // its length is given by its count.
    let mut bytes = bytes_of(&state(rng));
    let keep = 1 + rng.index(bytes.len() - 1);
    bytes.truncate(keep);
    characters(&bytes)
}

fn first_byte_only(rng: &mut Rng) -> Vec<u8> {
    rng.pick(&[&b"01\n"[..], b"02\n", b"0\n", b"1\n", b"2\n", b"00\n"])
        .to_vec()
}

fn count_off(rng: &mut Rng) -> Vec<u8> {
    let count = rng.index(17);
    let mut bytes = bytes_of(&state_with(rng, count));
    loop {
        let other = match rng.below(3) {
            0 => (count as u8).wrapping_add(1),
            1 => (count as u8).wrapping_sub(1),
            _ => rng.next() as u8,
        };
        if other as usize != count {
            bytes[112] = other;
            return characters(&bytes);
        }
    }
}

/// A place more or less than the count says.
fn place_off(rng: &mut Rng) -> Vec<u8> {
    let count = rng.range(1, 15) as usize;
    let (sender, mut state) = valid_state(rng, count + 1);
    let more = rng.one_in(2);
    let said = if more { count as u8 } else { count as u8 + 1 };
    if !more {
        state.places.pop();
    }
    let mut bytes = bytes_of(&state_line(rng, sender, state));
    bytes[112] = said;
    characters(&bytes)
}

/// A count over 16 with the length that goes with it.
fn count_17_and_more(rng: &mut Rng) -> Vec<u8> {
    let count = match rng.below(3) {
        0 => 17,
        1 => rng.range(17, 32),
        _ => rng.range(17, 255),
    } as usize;
    let (sender, mut state) = valid_state(rng, 16);
    let own = 1u64 << sender;
    while state.places.len() < count {
        let last = (state.places[state.places.len() - 1] >> 16).min(0xffff_fffe);
        state.places.push(own | ((last + 1) << 16));
        state.number = state.number.max(last as u32 + 1);
    }
    state_line(rng, sender, state)
}

fn empty_line(_: &mut Rng) -> Vec<u8> {
    b"\n".to_vec()
}

fn digits_only(rng: &mut Rng) -> Vec<u8> {
    let length = rng.pick(&[1, 2, 3, 11, 13, 14, 100, 225, 227, 238, 417, 419, 500]);
    let mut line: Vec<u8> = (0..length).map(|_| rng.pick(b"0123456789abcdef")).collect();
    line[0] = b'f';
    line.push(b'\n');
    line
}

// ------------------------------------------------------------- rule 3

fn view_zero(rng: &mut Rng) -> Vec<u8> {
    let mut bytes = bytes_of(&valid(rng));
    bytes[1..5].fill(0);
    characters(&bytes)
}

fn sender_over_15(rng: &mut Rng) -> Vec<u8> {
    let mut bytes = bytes_of(&valid(rng));
    bytes[5] = match rng.below(3) {
        0 => 16,
        1 => bytes[5] | 1 << rng.range(4, 7),
        _ => rng.range(16, 255) as u8,
    };
    characters(&bytes)
}

// ------------------------------------------------------------- rule 4

fn number_without_heads_in(rng: &mut Rng, which: u32) -> Vec<u8> {
    let count = rng.range(1, 16) as usize;
    let (sender, mut state) = valid_state(rng, count);
    let number = (rng.number().max(1) as u64) << 16;
    match which {
        0 => state.last_primary = number,
        1 => state.last_formed[rng.index(16)] = number,
        _ => {
            let at = rng.index(count);
            state.places[at] &= !0xffff;
        }
    }
    state_line(rng, sender, state)
}

fn primary_without_heads(rng: &mut Rng) -> Vec<u8> {
    number_without_heads_in(rng, 0)
}

fn formed_without_heads(rng: &mut Rng) -> Vec<u8> {
    number_without_heads_in(rng, 1)
}

fn place_without_heads(rng: &mut Rng) -> Vec<u8> {
    number_without_heads_in(rng, 2)
}

// ------------------------------------------------------------- rule 5

/// A valid state with a last primary of a number above 0 and a head q outside
/// of it.
fn state_with_outsider(rng: &mut Rng) -> (u8, State, usize) {
    loop {
        let count = rng.index(17);
        let (sender, state) = valid_state(rng, count);
        let heads = (state.last_primary & 0xffff) as u16;
        if heads == 0 || heads == 0xffff || state.last_primary >> 16 == 0 {
            continue;
        }
        let outside: Vec<usize> = (0..16).filter(|&q| heads >> q & 1 == 0).collect();
        let q = rng.pick(&outside);
        return (sender, state, q);
    }
}

fn primary_without_sender(rng: &mut Rng) -> Vec<u8> {
    loop {
        let (sender, mut state, _) = state_with_outsider(rng);
        let own = 1u64 << sender;
        state.last_primary &= !own;
        if state.last_primary & 0xffff == 0 {
            continue;
        }
        for q in 0..16 {
            if state.last_primary >> q & 1 == 1 {
                state.last_formed[q] = state.last_primary;
            }
        }
        state.last_formed[sender as usize] = 0;
        return state_line(rng, sender, state);
    }
}

/// Last formed for a head in last primary is another session, or none.
fn formed_not_primary(rng: &mut Rng) -> Vec<u8> {
    loop {
        let count = rng.index(17);
        let (sender, mut state) = valid_state(rng, count);
        let heads = (state.last_primary & 0xffff) as u16;
        if heads == 0 {
            continue;
        }
        let inside: Vec<usize> = (0..16).filter(|&q| heads >> q & 1 == 1).collect();
        let q = rng.pick(&inside);
        let word = state.last_primary;
        let other = match rng.below(5) {
            0 => 0,
            1 => word ^ (1 << rng.below(16)),
            2 => word ^ (1 << rng.range(16, 47)),
            3 if word >> 16 > 0 => word - 0x10000,
            _ => word & 0xffff,
        };
        if other == word || (other & 0xffff == 0 && other != 0) {
            continue;
        }
        state.last_formed[q] = other;
        return state_line(rng, sender, state);
    }
}

fn formed_without(rng: &mut Rng, sender_missing: bool) -> Vec<u8> {
    loop {
        let (sender, mut state, q) = state_with_outsider(rng);
        let lower = rng.below(state.last_primary >> 16);
        let missing = if sender_missing { sender as usize } else { q };
        let heads = (rng.next() as u16 | 1 << sender | 1 << q) & !(1 << missing);
        if heads == 0 {
            continue;
        }
        state.last_formed[q] = heads as u64 | (lower << 16);
        return state_line(rng, sender, state);
    }
}

fn formed_without_sender(rng: &mut Rng) -> Vec<u8> {
    formed_without(rng, true)
}

fn formed_without_its_head(rng: &mut Rng) -> Vec<u8> {
    formed_without(rng, false)
}

/// Last formed for a head outside last primary is not numbered lower. The
/// session number is high enough for rule 7.
fn formed_not_lower(rng: &mut Rng) -> Vec<u8> {
    let (sender, mut state, q) = state_with_outsider(rng);
    let n = state.last_primary >> 16;
    let number = match rng.below(3) {
        0 | 1 => n,
        _ => rng.range(n, 0xffff_ffff),
    };
    let heads = rng.set() | 1 << sender | 1 << q;
    state.last_formed[q] = heads as u64 | (number << 16);
    state.number = state.number.max(number as u32);
    state_line(rng, sender, state)
}

/// No last primary, but a last formed.
fn formed_without_primary(rng: &mut Rng) -> Vec<u8> {
    loop {
        let count = rng.index(17);
        let (sender, mut state) = valid_state(rng, count);
        if state.last_primary != 0 {
            continue;
        }
        let q = rng.index(16);
        let number = rng.pick(&[0, state.number as u64]);
        let heads = rng.set() | 1 << sender | 1 << q;
        state.last_formed[q] = heads as u64 | (number << 16);
        return state_line(rng, sender, state);
    }
}

// ------------------------------------------------------------- rule 6

fn places_not_rising(rng: &mut Rng) -> Vec<u8> {
    let count = rng.range(2, 16) as usize;
    let (sender, mut state) = valid_state(rng, count);
    let at = rng.index(count - 1);
    if rng.one_in(2) {
        // The same number twice, with the same heads or others.
        let number = state.places[at] >> 16;
        let heads = if rng.one_in(2) {
            state.places[at] & 0xffff
        } else {
            state.places[at + 1] & 0xffff
        };
        state.places[at + 1] = heads | (number << 16);
    } else {
        state.places.swap(at, at + 1);
    }
    state_line(rng, sender, state)
}

fn place_not_above_primary(rng: &mut Rng) -> Vec<u8> {
    loop {
        let count = rng.range(1, 16) as usize;
        let (sender, mut state) = valid_state(rng, count);
        let n = state.last_primary >> 16;
        if state.last_primary == 0 || n == 0 {
            continue;
        }
        let number = if rng.one_in(2) { n } else { rng.range(1, n) };
        state.places[0] = (state.places[0] & 0xffff) | (number << 16);
        return state_line(rng, sender, state);
    }
}

/// A place numbered 0, with no last primary or one numbered 0.
fn place_numbered_0(rng: &mut Rng) -> Vec<u8> {
    loop {
        let count = rng.range(1, 16) as usize;
        let (sender, mut state) = valid_state(rng, count);
        if state.last_primary >> 16 != 0 {
            continue;
        }
        state.places[0] &= 0xffff;
        return state_line(rng, sender, state);
    }
}

fn place_without_sender(rng: &mut Rng) -> Vec<u8> {
    loop {
        let count = rng.range(1, 16) as usize;
        let (sender, mut state) = valid_state(rng, count);
        let at = rng.index(count);
        state.places[at] &= !(1 << sender);
        if state.places[at] & 0xffff != 0 {
            return state_line(rng, sender, state);
        }
    }
}

fn place_none(rng: &mut Rng) -> Vec<u8> {
    let count = rng.range(1, 16) as usize;
    let (sender, mut state) = valid_state(rng, count);
    let at = match rng.below(3) {
        0 => 0,
        1 => count - 1,
        _ => rng.index(count),
    };
    state.places[at] = 0;
    state_line(rng, sender, state)
}

// ------------------------------------------------------------- rule 7

fn primary_above_number(rng: &mut Rng) -> Vec<u8> {
    loop {
        let (sender, mut state) = valid_state(rng, 0);
        let n = state.last_primary >> 16;
        if n == 0 {
            continue;
        }
        state.number = if rng.one_in(2) { n - 1 } else { rng.below(n) } as u32;
        return state_line(rng, sender, state);
    }
}

fn place_above_number(rng: &mut Rng) -> Vec<u8> {
    let count = rng.range(1, 16) as usize;
    let (sender, mut state) = valid_state(rng, count);
    let n = state.places[count - 1] >> 16;
    state.number = if rng.one_in(2) { n - 1 } else { rng.below(n) } as u32;
    state_line(rng, sender, state)
}

// ------------------------------------------------------------- the rest

fn damaged(rng: &mut Rng) -> Vec<u8> {
    let mut line = valid(rng);
    let digits = line.len() - 1;
    for _ in 0..=rng.below(3) {
        let at = rng.index(digits);
        line[at] = rng.next() as u8;
        if line[at] == b'\n' {
            line[at] = b'n';
        }
    }
    line
}

fn damaged_digits(rng: &mut Rng) -> Vec<u8> {
    let mut line = valid(rng);
    let digits = line.len() - 1;
    for _ in 0..=rng.below(3) {
        let at = rng.index(digits);
        line[at] = rng.pick(b"0123456789abcdef");
    }
    line
}

fn one_bit_off(rng: &mut Rng) -> Vec<u8> {
    let mut bytes = bytes_of(&valid(rng));
    let at = rng.index(bytes.len());
    bytes[at] ^= 1 << rng.below(8);
    characters(&bytes)
}

fn random_digits(rng: &mut Rng) -> Vec<u8> {
    let length = 2 * rng.pick(&[6, 6, 113, 119, 125, 209]);
    let mut line: Vec<u8> = (0..length).map(|_| rng.pick(b"0123456789abcdef")).collect();
    line[0] = b'0';
    line[1] = if length == 12 { b'2' } else { b'1' };
    if length > 12 {
        let count = (length / 2 - 113) / 6;
        line[224..226].copy_from_slice(format!("{count:02x}").as_bytes());
    }
    line.push(b'\n');
    line
}

fn garbage(rng: &mut Rng) -> Vec<u8> {
    let length = rng.index(600);
    let mut line: Vec<u8> = (0..length)
        .map(|_| match rng.next() as u8 {
            b'\n' => 0,
            b => b,
        })
        .collect();
    line.push(b'\n');
    line
}

fn two_frames(rng: &mut Rng) -> Vec<u8> {
    let mut line = valid(rng);
    line.pop();
    line.extend(valid(rng));
    line
}

fn long_length(rng: &mut Rng) -> usize {
    match rng.below(8) {
        0 => rng.range(420, 440) as usize,
        1 => rng.range(505, 520) as usize,
        2 => rng.range(1016, 1032) as usize,
        3 => rng.range(4090, 4102) as usize,
        4 => rng.range(8186, 8198) as usize,
        _ => rng.range(420, 2000) as usize,
    }
}

/// A valid frame at the start of a line that goes on.
fn long_beginning_valid(rng: &mut Rng) -> Vec<u8> {
    let mut line = valid(rng);
    line.pop();
    let length = long_length(rng).max(line.len() + 1);
    line.resize(length, b'0');
    line.push(b'\n');
    line
}

/// A valid frame at the end of a long line, with its newline.
fn long_ending_valid(rng: &mut Rng) -> Vec<u8> {
    let end = valid(rng);
    let before = long_length(rng);
    let mut line = vec![rng.pick(b"0123456789abcdef"); before];
    line.extend(end);
    line
}

/// A valid frame standing right after 419, 420, 512, ... characters.
fn long_ending_valid_after_a_buffer(rng: &mut Rng) -> Vec<u8> {
    let before = rng.pick(&[418, 419, 420, 421, 512, 1024, 2048, 4096, 8192]);
    let mut line = vec![b'0'; before];
    line.extend(valid(rng));
    line
}

fn very_long(rng: &mut Rng) -> Vec<u8> {
    let near = rng.pick(&[16_384, 32_768, 65_536, 131_072]);
    let length = near - 2 + rng.index(5);
    let mut line = vec![b'0'; length];
    let end = valid(rng);
    if rng.one_in(2) {
        line.extend(end);
    } else {
        line.push(b'\n');
    }
    line
}

macro_rules! valid_counts {
    ($($name:literal $count:literal),*) => {
        vec![$(Kind {
            name: $name,
            expect: Expect::State($count),
            make: |rng| state_with(rng, $count),
        }),*]
    };
}

/// Every kind of line.
pub fn kinds() -> Vec<Kind> {
    let mut all = valid_counts!(
        "valid state, 0 places" 0, "valid state, 1 place" 1, "valid state, 2 places" 2,
        "valid state, 3 places" 3, "valid state, 4 places" 4, "valid state, 5 places" 5,
        "valid state, 6 places" 6, "valid state, 7 places" 7, "valid state, 8 places" 8,
        "valid state, 9 places" 9, "valid state, 10 places" 10, "valid state, 11 places" 11,
        "valid state, 12 places" 12, "valid state, 13 places" 13, "valid state, 14 places" 14,
        "valid state, 15 places" 15, "valid state, 16 places" 16
    );
    let mut add = |name, expect, make| all.push(Kind { name, expect, make });
    use Expect::*;
    add("valid attempt", Attempt, attempt);
    add("rule 1: neighbour of the digits", Rule(1), neighbour_of_digits);
    add("rule 1: upper case", Rule(1), upper_case);
    add("rule 1: byte 00 in place of a digit", Rule(1), zero_byte);
    add("rule 1: byte 00 added", Rule(1), zero_byte_added);
    add("rule 1: byte over 7f", Rule(1), high_byte);
    add("rule 1: CR before the newline", Rule(1), carriage_return);
    add("rule 1: CR in place of a digit", Rule(1), carriage_return_inside);
    add("rule 1: blank or tab", Rule(1), blanks);
    add("rule 1: 0x before", Rule(1), prefix_0x);
    add("rule 2: another kind", Rule(2), other_kind);
    add("rule 2: state and attempt swapped", Rule(2), kinds_swapped);
    add("rule 2: a digit short", Rule(2), odd_short);
    add("rule 2: a digit long", Rule(2), odd_long);
    add("rule 2: a byte short", Rule(2), byte_short);
    add("rule 2: a byte long", Rule(2), byte_long);
    add("rule 2: truncated", Rule(2), truncated);
    add("rule 2: first byte only", Rule(2), first_byte_only);
    add("rule 2: count off", Rule(2), count_off);
    add("rule 2: a place off", Rule(2), place_off);
    add("rule 2: count 17 and more", Rule(2), count_17_and_more);
    add("rule 2: empty line", Rule(2), empty_line);
    add("rule 2: digits only", Rule(2), digits_only);
    add("rule 3: view 0", Rule(3), view_zero);
    add("rule 3: sender over 15", Rule(3), sender_over_15);
    add("rule 4: last primary", Rule(4), primary_without_heads);
    add("rule 4: last formed", Rule(4), formed_without_heads);
    add("rule 4: place", Rule(4), place_without_heads);
    add("rule 5: primary without sender", Rule(5), primary_without_sender);
    add("rule 5: formed is not primary", Rule(5), formed_not_primary);
    add("rule 5: formed without sender", Rule(5), formed_without_sender);
    add("rule 5: formed without its head", Rule(5), formed_without_its_head);
    add("rule 5: formed not lower", Rule(5), formed_not_lower);
    add("rule 5: formed without primary", Rule(5), formed_without_primary);
    add("rule 6: not rising", Rule(6), places_not_rising);
    add("rule 6: not above primary", Rule(6), place_not_above_primary);
    add("rule 6: number 0", Rule(6), place_numbered_0);
    add("rule 6: without sender", Rule(6), place_without_sender);
    add("rule 6: none", Rule(6), place_none);
    add("rule 7: primary above number", Rule(7), primary_above_number);
    add("rule 7: place above number", Rule(7), place_above_number);
    add("damage: any bytes", Any, damaged);
    add("damage: digits", Any, damaged_digits);
    add("damage: one bit", Any, one_bit_off);
    add("random digits of a valid length", Any, random_digits);
    add("garbage", Any, garbage);
    add("two frames in a line", Rule(2), two_frames);
    add("over-long: beginning valid", Rule(2), long_beginning_valid);
    add("over-long: ending valid", Rule(2), long_ending_valid);
    add("over-long: valid after a buffer", Rule(2), long_ending_valid_after_a_buffer);
    add("over-long: very long", Rule(2), very_long);
    all
}
