//! Lines that are no event: each is refused with 3 wherever it stands.

use crate::bench_events::write_event;
use crate::rng::Rng;
use second::bench::Event;
use second::group::size;
use second::lines::{write, Frame, State};

/// A kind of damage. `make` is given the digits of a good event and hands
/// back a line with its newline.
pub struct Damage {
    pub name: &'static str,
    pub make: fn(&mut Rng, &[u8]) -> Vec<u8>,
}

/// The damage that is taken rarely, as its lines are very long.
pub const VERY_LONG: &str = "very long";

macro_rules! kinds {
    ($($name:expr => $make:expr;)*) => {
        vec![$(Damage { name: $name, make: $make }),*]
    };
}

/// Every kind of damage.
pub fn kinds() -> Vec<Damage> {
    let mut all = of_bytes();
    all.extend(of_length());
    all.extend(of_fields());
    all.extend(of_groups());
    all
}

/// Bytes that are no lower-case digits.
fn of_bytes() -> Vec<Damage> {
    kinds! {
        "upper case" => |rng, good| match good.iter().any(|c| c.is_ascii_lowercase()) {
            true => line(&good.to_ascii_uppercase()),
            false => format!("14{:02X}\n", rng.range(10, 15)).into_bytes(),
        };
        "CR before the newline" => |_, good| line(&[good, b"\r"].concat());
        "CR in front" => |_, good| line(&[b"\r", good].concat());
        "two events parted by CR" => |_, good| line(&[good, b"\r", good].concat());
        "CR alone" => |_, _| line(b"\r");
        "blank in front" => |_, good| line(&[b" ", good].concat());
        "blank behind" => |_, good| line(&[good, b" "].concat());
        "tab behind" => |_, good| line(&[good, b"\t"].concat());
        "0x in front" => |_, good| line(&[b"0x", good].concat());
        "byte 00 in place of a digit" => |rng, good| replaced(rng, good, 0);
        "byte 00 behind" => |_, good| line(&[good, b"\0"].concat());
        "high byte in place of a digit" => |rng, good| {
            let byte = rng.range(0x80, 0xff) as u8;
            replaced(rng, good, byte)
        };
        "letter past f" => |rng, good| {
            let byte = rng.pick(b"gGzZ`@/:");
            replaced(rng, good, byte)
        };
        "garbage" => |rng, _| {
            let bytes: Vec<u8> = (0..1 + rng.index(30)).map(|_| rng.next() as u8 | 0x80).collect();
            line(&bytes)
        };
    }
}

/// Wrong lengths.
fn of_length() -> Vec<Damage> {
    kinds! {
        "empty" => |_, _| line(b"");
        "one digit less" => |_, good| line(&good[..good.len() - 1]);
        "one byte less" => |_, good| line(&good[..good.len() - 2]);
        "one digit more" => |_, good| line(&[good, b"0"].concat());
        "one byte more" => |_, good| line(&[good, b"00"].concat());
        "only the kind" => |_, good| line(&good[..2]);
        "two events in one line" => |_, good| line(&[good, good].concat());
        "over-long" => |rng, good| line(&[good, &vec![b'0'; 1 + rng.index(40)]].concat());
        "about the length of a buffer" => |rng, good| {
            let length = rng.pick(&[16usize, 32, 64, 512, 4096, 8192]) + rng.index(4);
            line(&[good, &vec![b'0'; length - 2]].concat())
        };
        VERY_LONG => |rng, good| line(&[good, &vec![b'0'; 10_000 + rng.index(200_000)]].concat());
    }
}

/// Digits and a length that are right, and a field that is not.
fn of_fields() -> Vec<Damage> {
    kinds! {
        "kind of no event" => |rng, good| {
            let kind = rng.pick(&[0x00, 0x01, 0x02, 0x0f, 0x19, 0x1a, 0x20, 0x91, 0xff]);
            line(&[format!("{kind:02x}").as_bytes(), &good[2..]].concat())
        };
        "kind of another length" => |rng, good| {
            let other: &[u8] = match good.len() {
                8 => rng.pick(&[b"11", b"12", b"14", b"16", b"18"]),
                _ => rng.pick(&[b"10", b"13", b"15", b"17"]),
            };
            line(&[other, &good[2..]].concat())
        };
        "a head's attempt line" => |rng, _| {
            let sender = rng.below(16) as u8;
            write(&Frame::Attempt { view: 1, sender })
        };
        "a head's state line" => |rng, _| blank_state(rng.below(16) as u8);
        "head over 15" => |rng, _| {
            let (kind, over) = (rng.pick(&[0x14, 0x16, 0x18]), rng.range(16, 255));
            format!("{kind:02x}{over:02x}\n").into_bytes()
        };
        "head over 15 that enters" => |rng, _| format!("12{:02x}00000001\n", rng.range(16, 255)).into_bytes();
        "head over 15 that is cut" => |rng, _| format!("17{:02x}0001\n", rng.range(16, 255)).into_bytes();
        "to a head over 15" => |rng, _| {
            let (kind, over) = (rng.pick(&[0x13, 0x15]), rng.range(16, 255));
            format!("{kind:02x}{over:02x}{:02x}00\n", rng.below(16)).into_bytes()
        };
        "from a head over 15" => |rng, _| {
            let (kind, over) = (rng.pick(&[0x13, 0x15]), rng.range(16, 255));
            format!("{kind:02x}{:02x}{over:02x}00\n", rng.below(16)).into_bytes()
        };
    }
}

/// Group lines that start refuses.
fn of_groups() -> Vec<Damage> {
    kinds! {
        "group without core heads" => |rng, _| write_event(&Event::Group { w0: 0, q: rng.below(3) as u8 });
        "group with Q over its size" => |rng, _| {
            let w0 = rng.set() | 1;
            let q = size(w0) as u8 + 1 + rng.below(4) as u8;
            write_event(&Event::Group { w0, q })
        };
    }
}

fn line(characters: &[u8]) -> Vec<u8> {
    [characters, b"\n"].concat()
}

fn replaced(rng: &mut Rng, good: &[u8], byte: u8) -> Vec<u8> {
    let mut bytes = good.to_vec();
    let at = rng.index(bytes.len());
    bytes[at] = byte;
    line(&bytes)
}

/// A state line that reads well, of a head that knows nothing.
fn blank_state(sender: u8) -> Vec<u8> {
    let state = State {
        number: 0,
        last_primary: 0,
        last_formed: vec![0; 16],
        places: Vec::new(),
    };
    let view = 1;
    write(&Frame::State {
        view,
        sender,
        state,
    })
}

/// Last bytes that have no newline, each one line that is no event.
pub fn tails(good: &[u8]) -> Vec<(&'static str, Vec<u8>)> {
    vec![
        ("an event", good.to_vec()),
        ("an event and CR", [good, b"\r"].concat()),
        ("part of an event", good[..good.len() / 2].to_vec()),
        ("one digit", b"1".to_vec()),
        ("a byte 00", vec![0]),
        ("a blank", b" ".to_vec()),
        ("many digits", vec![b'0'; 70_000]),
        ("a state line", blank_state(3)[..226].to_vec()),
    ]
}
