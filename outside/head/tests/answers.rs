//! The answers that histories of few heads do not meet, the quorum test, and
//! lines as they are read.

use head::{quorum, read_line, Decision, Fault, Head, Read, Refusal, Session, WORDS};

/// The words of head 0, alone in its group, after it entered nothing.
fn alone() -> [u64; WORDS] {
    Head::start([0; WORDS], 0, 0x0001, 1).unwrap().into_store()
}

fn decided(words: [u64; WORDS]) -> (Decision, Head<[u64; WORDS]>) {
    let mut head = Head::recover(words).unwrap();
    head.enter(1, 0x0001).unwrap();
    (head.decide().unwrap(), head)
}

#[test]
fn the_last_number_is_not_followed() {
    let mut words = alone();
    words[2] = 4_294_967_294;
    let (decision, head) = decided(words);
    assert_eq!(decision, Decision::Attempted);
    assert_eq!(head.number(), 4_294_967_295);

    words[2] = 4_294_967_295;
    let (decision, mut head) = decided(words);
    assert_eq!(decision, Decision::NumbersRunOut);
    assert_eq!(head.form(), Err(Fault::Refused(Refusal::Closed)));
}

#[test]
fn a_full_table_has_no_place() {
    let mut words = alone();
    for place in 0..16 {
        let other = 1 << (place % 15 + 1);
        words[20 + place] = (place as u64 + 1) << 16 | other | 1;
    }
    words[2] = 16;
    let (decision, mut head) = decided(words);
    assert_eq!(decision, Decision::NoPlace);
    let closed = Some(Fault::Refused(Refusal::Closed));
    assert_eq!(head.attempt_line().err(), closed);
}

#[test]
fn quorum_is_as_in_the_cases() {
    let cases = [
        (1, 0x001f, 0x0007, true),
        (1, 0x001f, 0x0003, false),
        (1, 0x000f, 0x000c, true),
        (1, 0x000f, 0x0003, false),
        (1, 0x0000, 0x001f, false),
        (2, 0x0018, 0x000f, true),
        (1, 0x0018, 0x000f, false),
        (2, 0x0001, 0x0001, false),
        (1, 0x0001, 0x0001, true),
        (1, 0x0060, 0x001f, true),
    ];
    for (least, s, t, holds) in cases {
        assert_eq!(quorum(0x001f, least, s, t), Ok(holds), "{s:04x} {t:04x}");
    }
    let refused = Err(Fault::Refused(Refusal::Group));
    assert_eq!(quorum(0x001f, 0, 0x001f, 0x001f), refused);
}

#[test]
fn lines_are_walked() {
    let text = b"020000000702\n02000000070A\n020000000710\n02";
    let (read, rest) = read_line(text);
    assert_eq!(read, Read::Attempt { view: 7, sender: 2 });
    assert_eq!(rest, &text[13..]);
    let (read, rest) = read_line(rest);
    assert_eq!(read, Read::Broken { rule: 1 });
    let (read, rest) = read_line(rest);
    assert_eq!(read, Read::Broken { rule: 3 });
    assert_eq!(read_line(rest), (Read::Broken { rule: 1 }, &b""[..]));
}

#[test]
fn a_state_line_tells_the_record() {
    let mut head = Head::start([0; WORDS], 3, 0x0009, 2).unwrap();
    head.enter(8, 0x0009).unwrap();
    let line = head.state_line().unwrap();
    let (
        Read::State {
            view: 8,
            sender: 3,
            state,
        },
        [],
    ) = read_line(line.bytes())
    else {
        panic!("not the line that was written");
    };
    let core = Some(Session {
        heads: 0x0009,
        number: 0,
    });
    assert_eq!((state.number, state.primary), (0, core));
    let formed: Vec<usize> = (0..16).filter(|h| state.formed[*h] == core).collect();
    assert_eq!(formed, [0, 3]);
    assert!(state.places.is_empty());
}

#[test]
fn places_are_read() {
    let mut words = alone();
    words[25] = 2 << 16 | 0x0003;
    words[20] = 5 << 16 | 0x0001;
    words[2] = 5;
    let mut head = Head::recover(words).unwrap();
    head.enter(1, 0x0001).unwrap();
    let line = head.state_line().unwrap();
    let (Read::State { state, .. }, _) = read_line(line.bytes()) else {
        panic!("not the line that was written");
    };
    let told = [(0x0003, 2), (0x0001, 5)].map(|(heads, number)| Session { heads, number });
    assert_eq!(state.places, told);
}
