//! Histories written as text, and what they show.

use compare::side::Second;
use explorer::event::History;
use explorer::step::Runner;
use explorer::text;
use explorer::world::World;
use second::answers::Answer;

/// The world after a history that does not fail, and the answers.
fn made(history: &History) -> (World, Vec<Option<Answer>>) {
    let mut side = Second;
    let mut runner = Runner::new(&mut side, 1);
    let mut world = World::new(history.settings);
    runner.start(&mut world).expect("heads start");
    let step = |event| runner.step(&mut world, event).expect("no failure");
    let answers = history.events.iter().map(step).collect();
    (world, answers)
}

#[test]
fn a_text_is_read_as_it_was_written() {
    let written = "group 001f 2 5 7\nview 1:0007 3:0018\nenter 1 0 1:0 2\nstate 1 0<1 2<0\n\
                   state-as-attempt 1 0<2\ndecide 0:3 1\nattempt 1 0<1\nattempt-as-state 1 1<0\n\
                   form 0:12 1\nrecover 0:1 0\nstop 2\nwrite-state 2:419\nwrite-attempt 1:0";
    let history = text::read(written).expect("it reads");
    assert_eq!(history.events.len(), 19);
    assert_eq!(text::lines(&history).join("\n"), written);
    assert_eq!(text::read(&text::lines(&history).join("; ")), Ok(history));
}

#[test]
fn texts_that_are_none_are_refused() {
    for wrong in [
        "",
        "view 1:0007",
        "group 1 1 17 0",
        "group 1 1 1 0; sleep 1",
        "group 1 1 1 0; decide x",
    ] {
        assert!(text::read(wrong).is_err(), "{wrong}");
    }
}

/// Case 11 of document 01.
#[test]
fn case_11() {
    let history = text::read(
        "group 001f 1 5 0; view 1:0007 2:0003 3:001c; enter 1 0 1 2
         state 1 0<1 0<2 1<0 1<2 2<0 2<1; decide 0 1 2
         attempt 1 0<1 0<2 1<0 1<2; form 0 1
         enter 2 0 1; state 2 0<1 1<0; decide 0 1
         enter 3 2 3 4; state 3 2<3 2<4 3<2 3<4 4<2 4<3; decide 2 3 4",
    );
    let (world, answers) = made(&history.expect("it reads"));
    let attempted = answers
        .iter()
        .filter(|a| **a == Some(Answer::Attempted))
        .count();
    assert_eq!(attempted, 5);
    assert_eq!(&answers[answers.len() - 3..], &[Some(Answer::NoQuorum); 3]);
    assert_eq!(
        world.formed.into_iter().collect::<Vec<_>>(),
        [(0, 0x1f), (1, 7)]
    );
}

/// Case 12: the first of six stores is enough.
#[test]
fn case_12() {
    let to_form = "group 001f 1 5 0; view 1:0007; enter 1 0 1 2
         state 1 0<1 0<2 1<0 1<2 2<0 2<1; decide 0 1 2; attempt 1 2<0 2<1; form 2";
    let cut = text::read(&format!("{to_form}:1; recover 2")).expect("it reads");
    let uncut = text::read(to_form).expect("it reads");
    let (recovered, formed) = (made(&cut).0, made(&uncut).0);
    assert_eq!(recovered.heads[2].record, formed.heads[2].record);
    assert_eq!(formed.heads[2].record[3], 0x10007);
}

#[test]
fn a_line_that_is_not_there_is_passed_over() {
    let history = text::read("group 0003 1 2 0; view 1:0003; enter 1 0; state 1 0<1; decide 0");
    let (_, answers) = made(&history.expect("it reads"));
    assert_eq!(answers[2], None);
    assert!(matches!(answers[3], Some(Answer::Refused(_))));
}
