//! "Examples of both sides": cases 1 to 12, and the others of that section.

use second::answers::{Answer, Refusal};
use second::calls::*;
use second::frames::frames;
use second::head_session::{HeadSession, Stage};
use second::quorum::quorum_test;
use second::record::{self, start, whole, WORDS};
use second::stores::recover;

const ALL: u64 = u64::MAX;
const W0: u16 = 0x001f;

struct Head {
    record: Vec<u64>,
    session: HeadSession,
}

impl Head {
    fn fresh(head: u8, q: u8) -> Head {
        let mut record = vec![7; WORDS];
        assert_eq!(start(&mut record, head, W0, q), Answer::Started);
        assert!(whole(&record));
        Head {
            record,
            session: HeadSession::none(),
        }
    }

    fn step(&mut self, f: impl FnOnce(&mut [u64], HeadSession) -> (Answer, HeadSession)) -> Answer {
        let session = std::mem::replace(&mut self.session, HeadSession::none());
        let (answer, session) = f(&mut self.record, session);
        self.session = session;
        answer
    }

    fn enter(&mut self, view: u32, m: u16) -> Answer {
        self.step(|r, s| enter(r, s, view, m, ALL))
    }

    fn decide(&mut self) -> Answer {
        self.step(|r, s| decide(r, s, ALL))
    }

    fn form(&mut self) -> Answer {
        self.step(|r, s| form(r, s, ALL))
    }

    fn state_line(&mut self) -> Vec<u8> {
        let mut out = vec![b'?'; 500];
        match self.step(|r, s| write_state(r, s, &mut out)) {
            Answer::Written(n) => {
                assert!(out[n..].iter().all(|&b| b == b'?'));
                out[..n].to_vec()
            }
            other => panic!("{other:?}"),
        }
    }

    fn attempt_line(&mut self) -> Vec<u8> {
        let mut out = vec![b'?'; 20];
        match self.step(|r, s| write_attempt(r, s, &mut out)) {
            Answer::Written(n) => out[..n].to_vec(),
            other => panic!("{other:?}"),
        }
    }
}

/// The heads of M enter the view and hear every state.
fn meet(heads: &mut [Head], view: u32, m: u16) {
    let members: Vec<usize> = second::group::heads_in(m);
    for &h in &members {
        assert_eq!(heads[h].enter(view, m), Answer::Entered);
    }
    for &h in &members {
        let line = heads[h].state_line();
        for &g in &members {
            if g != h {
                let answer = heads[g].step(|r, s| hear_state(r, s, &line));
                assert_eq!(answer, Answer::Heard);
            }
        }
    }
}

/// The heads of M hear every attempt.
fn exchange_attempts(heads: &mut [Head], m: u16) {
    let members: Vec<usize> = second::group::heads_in(m);
    for &h in &members {
        let line = heads[h].attempt_line();
        for &g in &members {
            if g != h {
                let answer = heads[g].step(|r, s| hear_attempt(r, s, &line));
                assert_eq!(answer, Answer::Heard);
            }
        }
    }
}

fn five(q: u8) -> Vec<Head> {
    (0..5).map(|h| Head::fresh(h, q)).collect()
}

#[test]
fn cases_1_to_10() {
    let table: [(u8, u16, u16, bool); 10] = [
        (1, 0x001f, 0x0007, true),
        (1, 0x001f, 0x0003, false),
        (1, 0x000f, 0x000c, true),
        (1, 0x000f, 0x0003, false),
        (1, 0x0000, 0x001f, false),
        (2, 0x0018, 0x000f, true),
        (1, 0x0018, 0x000f, false),
        (2, 0x0001, 0x0001, false),
        (1, 0x0001, 0x0001, true),
        (1, 0x0060, 0x001f, true),
    ];
    for (i, (q, s, t, expected)) in table.into_iter().enumerate() {
        assert_eq!(quorum_test(W0, q, s, t), Ok(expected), "case {}", i + 1);
    }
}

#[test]
fn quorum_test_refusals() {
    assert_eq!(quorum_test(0, 1, 1, 1), Err(Refusal::BadStart));
    assert_eq!(quorum_test(W0, 0, 1, 1), Err(Refusal::BadStart));
    assert_eq!(quorum_test(W0, 6, 1, 1), Err(Refusal::BadStart));
    assert!(quorum_test(W0, 5, 1, 1).is_ok());
}

/// View 1 is 0007: all three attempt and have heard each other's attempts.
fn view_1() -> Vec<Head> {
    let mut heads = five(1);
    meet(&mut heads, 1, 0x0007);
    for h in 0..3 {
        assert_eq!(heads[h].decide(), Answer::Attempted);
        assert_eq!(heads[h].record[20], 0x10007);
    }
    exchange_attempts(&mut heads, 0x0007);
    heads
}

#[test]
fn case_11() {
    let mut heads = view_1();
    assert_eq!(heads[0].form(), Answer::Formed);
    assert_eq!(heads[1].form(), Answer::Formed);

    meet(&mut heads, 2, 0x0003);
    for h in 0..2 {
        assert_eq!(heads[h].decide(), Answer::Attempted);
        assert_eq!(heads[h].record[20], 0x20003);
        assert_eq!(heads[h].record[2], 2);
    }

    meet(&mut heads, 3, 0x001c);
    for h in 2..5 {
        assert_eq!(heads[h].decide(), Answer::NoQuorum);
        assert_eq!(heads[h].session.stage, Stage::Closed);
    }
    assert_eq!(heads[2].record[20], 0x10007);
}

#[test]
fn case_12() {
    let mut heads = view_1();
    let before = heads[2].record.clone();
    assert_eq!(heads[2].form(), Answer::Formed);
    let mut after = before.clone();
    for word in [3, 4, 5, 6] {
        after[word] = 0x10007;
    }
    after[20] = 0;
    after[36] = 0;
    assert_eq!(heads[2].record, after);

    // Cut after each number of the six stores, recovery gives the record
    // after forming if word 3 was stored and the one before otherwise.
    for budget in 0..=6 {
        let mut heads = view_1();
        let answer = heads[2].step(|r, s| form(r, s, budget));
        if budget == 6 {
            assert_eq!(answer, Answer::Formed);
        } else {
            assert_eq!(answer, Answer::Cut);
            assert!(heads[2].session.is_none());
        }
        assert_eq!(recover(&mut heads[2].record, ALL), Answer::Recovered);
        let expected = if budget == 0 { &before } else { &after };
        assert_eq!(&heads[2].record, expected);
    }
}

#[test]
fn entering_a_view_twice() {
    let mut head = Head::fresh(0, 1);
    assert_eq!(head.enter(1, 1), Answer::Entered);
    let answer = head.enter(1, 1);
    assert_eq!(answer, Answer::Refused(Refusal::OldView));
    assert_eq!(Refusal::OldView.number(), 5);
}

#[test]
fn a_view_of_one_head() {
    let mut record = vec![0; WORDS];
    assert_eq!(start(&mut record, 3, 0x0008, 0), Answer::Started);
    let mut head = Head {
        record,
        session: HeadSession::none(),
    };
    assert_eq!(head.enter(1, 0x0008), Answer::Entered);
    assert_eq!(head.decide(), Answer::Attempted);
    assert_eq!(head.form(), Answer::Formed);
    assert_eq!(head.record[3], 0x10008);
}

#[test]
fn numbers_run_out() {
    for (number, expected) in [
        (4_294_967_294, Answer::Attempted),
        (4_294_967_295, Answer::NumbersRunOut),
    ] {
        let mut head = Head::fresh(0, 1);
        head.record[2] = number;
        // The last primary is taken down to one head, so that a view of one
        // head passes.
        for word in 4..20 {
            head.record[word] = 0;
        }
        head.record[3] = 1 | (number << 16);
        head.record[4] = 1 | (number << 16);
        assert!(whole(&head.record));
        assert_eq!(head.enter(1, 1), Answer::Entered);
        assert_eq!(head.decide(), expected);
        if expected == Answer::Attempted {
            assert_eq!(head.record[2], 4_294_967_295);
            assert_eq!(head.record[20], 1 | (0xffff_ffff << 16));
        }
    }
}

#[test]
fn the_program_frames() {
    let input = b"020000000702\n02000000070A\n020000000710\n";
    assert_eq!(frames(input), b"A 7 2\nR 3\nR 3\n");
    assert_eq!(frames(b""), b"");
    assert_eq!(frames(b"\n"), b"R 3\n");
    assert_eq!(frames(b"\n\n020000000702"), b"R 3\nR 3\nR 3\n");
    let mut head = Head::fresh(4, 2);
    head.enter(9, 0x0010);
    let line = head.state_line();
    assert_eq!(line.len(), 227);
    assert_eq!(frames(&line), b"S 9 4 0 001f 0 0\n");
    let mut outside = Head::fresh(7, 2);
    outside.enter(4_294_967_295, 0x0080);
    let line = outside.state_line();
    assert_eq!(frames(&line), b"S 4294967295 7 0 0000 -1 0\n");
}

#[test]
fn start_refusals() {
    let one = Answer::Refused(Refusal::BadStart);
    let two = Answer::Refused(Refusal::BadRecordOrSession);
    let mut record = vec![5; WORDS];
    assert_eq!(start(&mut record, 16, W0, 1), one);
    assert_eq!(start(&mut record, 0, 0, 1), one);
    assert_eq!(start(&mut record, 0, 0, 0), one);
    assert_eq!(start(&mut record, 0, W0, 6), one);
    assert_eq!(start(&mut record[1..], 0, W0, 6), one);
    assert_eq!(start(&mut record[1..], 0, W0, 5), two);
    assert_eq!(record, vec![5; WORDS]);
    assert_eq!(start(&mut record, 0, W0, 0), Answer::Started);
    assert_eq!(record[0], 0x0001_001f);
    let group = record::group_in(record[0]).unwrap();
    assert_eq!((group.w0, group.q, group.own), (W0, 1, 0));
}

/// The refusals of each call in a session's life, in the table's order.
#[test]
fn refusals_by_stage() {
    let no = Answer::Refused;
    let mut heads = five(1);
    let mut out = vec![0; 419];

    // No session.
    let head = &mut heads[0];
    assert_eq!(head.decide(), no(Refusal::NoSession));
    assert_eq!(head.form(), no(Refusal::NoSession));
    let answer = head.step(|r, s| write_state(r, s, &mut []));
    assert_eq!(answer, no(Refusal::NoSession));
    let answer = head.step(|r, s| write_attempt(r, s, &mut []));
    assert_eq!(answer, no(Refusal::NoSession));
    let answer = head.step(|r, s| hear_attempt(r, s, b"020000000101\n"));
    assert_eq!(answer, no(Refusal::NoSession));
    let answer = head.step(|r, s| hear_state(r, s, b"020000000101\n"));
    assert_eq!(answer, no(Refusal::BadLine));
    assert_eq!(head.enter(0, 2), no(Refusal::NotAMember));
    assert_eq!(head.enter(0, 1), no(Refusal::OldView));

    // Undecided.
    assert_eq!(head.enter(1, 7), Answer::Entered);
    assert_eq!(head.decide(), no(Refusal::NotYetHeard));
    assert_eq!(head.form(), no(Refusal::TooEarly));
    let answer = head.step(|r, s| write_attempt(r, s, &mut out));
    assert_eq!(answer, no(Refusal::TooEarly));
    let answer = head.step(|r, s| write_state(r, s, &mut out[1..]));
    assert_eq!(answer, no(Refusal::ShortOutput));
    for (line, answer) in [
        (&b"020000000201\n"[..], no(Refusal::OtherView)),
        (b"020000000209\n", no(Refusal::OtherView)),
        (b"020000000109\n", no(Refusal::NotAMember)),
        (b"020000000100\n", no(Refusal::AlreadyHeard)),
        (b"020000000101\n", Answer::Heard),
        (b"020000000101\n", no(Refusal::AlreadyHeard)),
        (b"020000000102", no(Refusal::BadLine)),
        (b"020000000102\n\n", no(Refusal::BadLine)),
        (b"", no(Refusal::BadLine)),
    ] {
        assert_eq!(head.step(|r, s| hear_attempt(r, s, line)), answer);
    }

    // Closed.
    heads[1].record[2] = 0;
    meet(&mut heads, 2, 0x0003);
    let head = &mut heads[0];
    assert_eq!(head.decide(), Answer::NoQuorum);
    assert_eq!(head.decide(), no(Refusal::TooLate));
    assert_eq!(head.form(), no(Refusal::Closed));
    let answer = head.step(|r, s| write_state(r, s, &mut []));
    assert_eq!(answer, no(Refusal::TooLate));
    let answer = head.step(|r, s| write_attempt(r, s, &mut []));
    assert_eq!(answer, no(Refusal::Closed));
    let answer = head.step(|r, s| hear_attempt(r, s, b"020000000200\n"));
    assert_eq!(answer, no(Refusal::Closed));

    // Attempted, then formed.
    let mut heads = view_1();
    let head = &mut heads[0];
    assert_eq!(head.decide(), no(Refusal::TooLate));
    let answer = head.step(|r, s| write_attempt(r, s, &mut out[..12]));
    assert_eq!(answer, no(Refusal::ShortOutput));
    assert_eq!(head.form(), Answer::Formed);
    assert_eq!(head.form(), no(Refusal::TooLate));
    let answer = head.step(|r, s| write_attempt(r, s, &mut out[..13]));
    assert_eq!(answer, Answer::Written(13));
    assert_eq!(&out[..13], b"020000000100\n");

    // A record that is not whole, or of another length.
    let two = no(Refusal::BadRecordOrSession);
    head.record[51] = 1;
    assert_eq!(head.form(), two);
    head.record.push(0);
    assert_eq!(head.enter(0, 0), two);
    assert_eq!(recover(&mut head.record, 0), two);
}
