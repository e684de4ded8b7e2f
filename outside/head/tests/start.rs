//! A start that is stopped leaves no head, whatever the store held before.

mod common;

use common::Flash;
use head::{Fault, Head, Refusal, Store, WORDS};

const CORE: u16 = 0x001f;
const LEAST: u8 = 2;

fn fresh(own: u8) -> [u64; WORDS] {
    Head::start([0; WORDS], own, CORE, LEAST)
        .unwrap()
        .into_store()
}

/// A record of head 1 that formed a session of its own.
fn used() -> [u64; WORDS] {
    let mut head = Head::start([0; WORDS], 1, 0x0002, 1).unwrap();
    head.enter(9, 0x0002).unwrap();
    head.decide().unwrap();
    head.form().unwrap();
    assert!(head.is_primary());
    head.into_store()
}

/// Starts over what the store held, with a loss of power after so many words.
/// True if the start came to its end before that.
fn start_cut(held: [u64; WORDS], own: u8, left: usize, is_kept: bool) -> bool {
    let mut flash = Flash::of(held);
    flash.loss.set(Some((left, is_kept)));
    if Head::start(&mut flash, own, CORE, LEAST).is_ok() {
        assert_eq!(flash.words, fresh(own));
        return true;
    }
    flash.loss.set(None);
    let words = flash.words;
    let recovered = Head::recover(&mut flash).err();
    if words == fresh(own) || (words == held && proved::whole(&held)) {
        assert_eq!(recovered, None);
    } else {
        assert_eq!(recovered, Some(Fault::Refused(Refusal::Record)));
    }
    assert!(Head::start(&mut flash, own, CORE, LEAST).is_ok());
    assert_eq!(flash.words, fresh(own));
    false
}

#[test]
fn a_stopped_start_leaves_no_head() {
    let mut cuts = 0;
    for held in [[0; WORDS], [u64::MAX; WORDS], used(), fresh(1), fresh(4)] {
        for (own, is_kept) in [(3, false), (3, true), (7, false), (7, true)] {
            cuts += (0..)
                .take_while(|left| !start_cut(held, own, *left, is_kept))
                .count();
        }
    }
    assert!(cuts > 200, "{cuts} cuts");
}

#[test]
fn start_refuses_without_storing() {
    for (own, core, least) in [(16, CORE, LEAST), (0, 0, 0), (0, CORE, 6)] {
        let mut flash = Flash::of(used());
        let refused = Some(Fault::Refused(Refusal::Group));
        assert_eq!(Head::start(&mut flash, own, core, least).err(), refused);
        assert_eq!(flash.words, used());
        assert!(flash.log.take().is_empty());
    }
}

#[test]
fn a_head_comes_up_from_whole_words_without_storing() {
    let mut flash = Flash::of(used());
    let mut head = Head::recover(&mut flash).unwrap();
    assert!(!head.is_primary());
    assert_eq!(head.form(), Err(Fault::Refused(Refusal::NoSession)));
    assert_eq!(head.words(), &used());
    assert!(flash.log.take().is_empty());
}

#[test]
fn a_store_in_memory_stops_past_its_end() {
    assert!([0u64; WORDS].put(WORDS, 1).is_err());
}
