//! "The recovered record is the one after the done changes", for `second`.

use compare::rng::Rng;
use compare::session_gen::{case, full_case, Want};
use second::answers::Answer;
use second::calls::{decide, decide_stores, form};
use second::record::{MARKS, PLACE, PRIMARY};
use second::stores::{make, recover, Stores};

const ALL: u64 = u64::MAX;

/// Parts the stores of a decide call in its changes.
fn changes(record: &[u64], stores: &Stores) -> Vec<Stores> {
    let mut all: Vec<Stores> = Vec::new();
    let mut at = 0;
    // Mark words.
    while at < stores.len() && stores[at].0 >= MARKS {
        all.push(vec![stores[at]]);
        at += 1;
    }
    // Adoption, with the places at or below its number.
    if at < stores.len() && stores[at].0 == PRIMARY {
        let number = stores[at].1 >> 16;
        let mut change = vec![stores[at]];
        at += 1;
        while at < stores.len() && stores[at].0 < PLACE && stores[at].0 != PRIMARY {
            change.push(stores[at]);
            at += 1;
        }
        while at < stores.len()
            && stores[at].0 < MARKS
            && stores[at].1 == 0
            && record[stores[at].0] >> 16 <= number
        {
            change.push(stores[at]);
            change.push(stores[at + 1]);
            at += 2;
        }
        all.push(change);
    }
    // Clearings under c and the attempt: two words each.
    while at < stores.len() {
        all.push(vec![stores[at], stores[at + 1]]);
        at += 2;
    }
    all
}

#[test]
fn decide_cut_anywhere() {
    let mut rng = Rng::new(11);
    let mut cut = 0;
    for i in 0..3000 {
        let case = if i % 5 == 0 {
            full_case(&mut rng)
        } else {
            case(&mut rng, Want::Ready)
        };
        let stores = decide_stores(&case.record, &case.session).expect("it is not refused");
        let changes = changes(&case.record, &stores);
        assert_eq!(changes.concat(), stores);
        for budget in 0..=stores.len() {
            let mut record = case.record.clone();
            let (answer, _) = decide(&mut record, case.session.clone(), budget as u64);
            assert_eq!(answer == Answer::Cut, budget < stores.len());
            assert_eq!(recover(&mut record, ALL), Answer::Recovered);

            let mut expected = case.record.clone();
            let mut first = 0;
            for change in &changes {
                if first < budget {
                    make(&mut expected, change, ALL);
                }
                first += change.len();
            }
            assert_eq!(record, expected, "budget {budget}");
            cut += 1;
        }
    }
    assert!(cut > 10_000);
}

#[test]
fn form_cut_anywhere() {
    let mut rng = Rng::new(12);
    for _ in 0..500 {
        let case = case(&mut rng, Want::Complete);
        let mut formed = case.record.clone();
        let (answer, _) = form(&mut formed, case.session.clone(), ALL);
        assert_eq!(answer, Answer::Formed);
        for budget in 0.. {
            let mut record = case.record.clone();
            let (answer, _) = form(&mut record, case.session.clone(), budget);
            if answer == Answer::Formed {
                break;
            }
            assert_eq!(recover(&mut record, ALL), Answer::Recovered);
            let expected = if budget == 0 { &case.record } else { &formed };
            assert_eq!(&record, expected, "budget {budget}");
        }
    }
}
