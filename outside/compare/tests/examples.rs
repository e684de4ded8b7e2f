//! The examples of document 01 that are not in its table, run on the second
//! program and on the proved library, and compared with what document 01 says.

use compare::proved_side::Proved;
use compare::side::{Second, Side};
use second::answers::{Answer, Refusal};
use second::head_session::HeadSession;

const NO_LIMIT: u64 = u64::MAX;

/// A started record of head 0 with W0 {0}, Q 1, and its session number.
fn alone(side: &mut dyn Side, number: u64) -> [u64; 52] {
    let mut record = [0; 52];
    assert_eq!(side.start(&mut record, 0, 0x0001, 1), Answer::Started);
    record[2] = number;
    assert!(side.whole(&record));
    record
}

fn on_both(example: fn(&mut dyn Side)) {
    example(&mut Second);
    example(&mut Proved);
}

#[test]
fn entering_view_1_twice_is_refused_with_5() {
    on_both(|side| {
        let mut record = alone(side, 0);
        let mut session = HeadSession::none();
        let first = side.enter(&mut record, &mut session, 1, 0x0001, NO_LIMIT);
        assert_eq!(first, Answer::Entered);
        let (words, held) = (record, session.clone());
        let second = side.enter(&mut record, &mut session, 1, 0x0001, NO_LIMIT);
        assert_eq!(second, Answer::Refused(Refusal::OldView));
        assert_eq!(Refusal::OldView.number(), 5);
        assert!(record == words && session == held);
    });
}

#[test]
fn a_one_head_view_decides_and_forms_with_no_line_heard() {
    on_both(|side| {
        let mut record = alone(side, 0);
        let mut session = HeadSession::none();
        assert_eq!(side.enter(&mut record, &mut session, 1, 0x0001, NO_LIMIT), Answer::Entered);
        assert_eq!(side.decide(&mut record, &mut session, NO_LIMIT), Answer::Attempted);
        assert_eq!(side.form(&mut record, &mut session, NO_LIMIT), Answer::Formed);
        assert_eq!(record[3], 0x1_0001);
    });
}

#[test]
fn number_4294967294_can_be_followed_and_4294967295_cannot() {
    on_both(|side| {
        for (number, answer) in [
            (4_294_967_294, Answer::Attempted),
            (4_294_967_295, Answer::NumbersRunOut),
        ] {
            let mut record = alone(side, number);
            let mut session = HeadSession::none();
            side.enter(&mut record, &mut session, 1, 0x0001, NO_LIMIT);
            assert_eq!(side.decide(&mut record, &mut session, NO_LIMIT), answer);
        }
    });
}
