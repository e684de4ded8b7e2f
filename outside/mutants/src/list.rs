//! The slips. Some are the other readings of outside/INDEPENDENCE.md, so that
//! a program that took one of them would be seen.

// Left out, as they can't be seen: a record with W0 empty (Q is then over its
// size), a session whose M lacks own head (what it has heard has own head and
// is within M), and under c a last primary equal to S taken as lower (step b
// has then cleared S).

use crate::Slip;

macro_rules! slips {
    ($($file:literal: $what:literal, $from:literal => $to:literal;)*) => {
        vec![$(Slip { file: $file, what: $what, from: $from, to: $to }),*]
    };
}

pub fn slips() -> Vec<Slip> {
    slips! {
        "quorum.rs": "Q 0 taken", "|| q as u32 > size(w0) || q == 0 {" => "|| q as u32 > size(w0) {";
        "quorum.rs": "Q over the size taken", "|| q as u32 > size(w0) || q == 0 {" => "|| q == 0 {";
        "quorum.rs": "W0 empty taken", "w0 == 0 || q as u32 > size(w0) || q == 0" => "(w0 != 0 && q as u32 > size(w0)) || q == 0";
        "quorum.rs": "more than Q heads asked for", "core < q as u32" => "core <= q as u32";
        "quorum.rs": "half is enough", "shared * 2 > size(s)" => "shared * 2 >= size(s)";
        "quorum.rs": "lowest head breaks a tie", "highest_head(s).is_some_and(|h| has(t, h))" => "(0..16).find(|&h| has(s, h)).is_some_and(|h| has(t, h))";
        "quorum.rs": "highest head of T breaks a tie", "highest_head(s).is_some_and(|h| has(t, h))" => "highest_head(t).is_some_and(|h| has(s, h))";
        "quorum.rs": "third clause with equality", "core > size(w0) - q as u32" => "core >= size(w0) - q as u32";
        "quorum.rs": "no third clause", "first || second || third" => "first || second";
        "quorum.rs": "S none passes by the third clause", "if s == 0 {" => "if false {";

        "lines.rs": "upper case taken", "b'a'..=b'f' => digits.push(c - b'a' + 10)," => "b'a'..=b'f' => digits.push(c - b'a' + 10), b'A'..=b'F' => digits.push(c - b'A' + 10),";
        "lines.rs": "CR taken", "for &c in characters {" => "for &c in characters.strip_suffix(b\"\\r\").unwrap_or(characters) {";
        "lines.rs": "digit g taken", "b'a'..=b'f' => digits.push(c - b'a' + 10)," => "b'a'..=b'g' => digits.push((c - b'a' + 10) % 16),";
        "lines.rs": "count over 16 taken", "count > PLACES || " => "";
        "lines.rs": "longer state taken", "bytes.len() != STATE_BYTES + 6 * count" => "bytes.len() < STATE_BYTES + 6 * count";
        "lines.rs": "longer attempt taken", "if bytes.len() != ATTEMPT_BYTES {" => "if bytes.len() < ATTEMPT_BYTES {";
        "lines.rs": "odd digit dropped", "digits.is_empty() || digits.len() % 2 != 0" => "digits.len() < 2 || { if digits.len() % 2 != 0 { digits.pop(); } false }";
        "lines.rs": "view 0 taken", "if view == 0 || sender" => "if sender";
        "lines.rs": "sender 16 taken", "sender as usize >= HEADS" => "sender as usize > HEADS";
        "lines.rs": "session without heads taken as none", "let session = |word: u64| session_in(word).map_err(|_| Broken(4));" => "let session = |word: u64| -> Result<Option<Session>, Broken> { Ok(session_in(word).unwrap_or(None)) };";
        "lines.rs": "primary without sender taken", "if !has(primary.heads, own) {" => "if false && !has(primary.heads, own) {";
        "lines.rs": "formed need not be primary", "if last_formed[q] != last_primary {" => "if false {";
        "lines.rs": "formed without its head taken", "|| !has(formed.heads, q) ||" => "||";
        "lines.rs": "formed without own head taken", "if !has(formed.heads, own) || !has" => "if !has";
        "lines.rs": "formed of the same number taken", "< number_of(last_primary);" => "<= number_of(last_primary);";
        "lines.rs": "places of the same number taken", "number <= before ||" => "number < before ||";
        "lines.rs": "place number 0 taken", "|| number < 1 ||" => "||";
        "lines.rs": "place without sender taken", "|| !has(place.heads, sender) {" => "{";
        "lines.rs": "place none taken", "let Some(place) = place else {\n            return Err(Broken(6));\n        };" => "let Some(place) = place else { continue };";
        "lines.rs": "places need not be above the primary", "let mut before = number_of(last_primary);" => "let mut before = -1;";
        "lines.rs": "numbers below the session number only", ".all(|s| number_of(s) <= most)" => ".all(|s| number_of(s) < most.max(1))";
        "lines.rs": "places above the session number taken", "        .chain(last_formed)\n        .chain(places)\n" => "        .chain(last_formed)\n";
        "lines.rs": "primary above the session number taken", "let all = [last_primary]\n        .into_iter()\n        .chain(last_formed)" => "let all = [None]\n        .into_iter()";
        "lines.rs": "bytes after the line taken", "if rest.is_empty() {" => "if true || rest.is_empty() {";
        "lines.rs": "line without newline taken", "None => (Err(Broken(1))," => "None => (judge(bytes),";
        "lines.rs": "the rest begins a byte late", "&bytes[at + 1..])" => "&bytes[(at + 2).min(bytes.len())..])";
        "lines.rs": "low byte first", ".fold(0, |n, &b| n * 256 + b as u32)" => ".rev().fold(0, |n, &b| n * 256 + b as u32)";

        "frames.rs": "upper-case heads", "{:04x}" => "{:04X}";
        "frames.rs": "heads without leading zeros", "{:04x}" => "{:x}";
        "frames.rs": "none printed as 0", "number_of(primary)," => "number_of(primary).max(0),";
        "frames.rs": "last bytes left out", "while !rest.is_empty() {" => "while rest.contains(&b'\\n') {";
        "frames.rs": "empty lines left out", "out.extend(text(&verdict).into_bytes());" => "if rest[0] != b'\\n' { out.extend(text(&verdict).into_bytes()); }";

        "group.rs": "bits above taken", "word >> 48 != 0 || heads == 0" => "heads == 0";
        "group.rs": "number read without the bits above (sentence 6)", "(word >> 16) as i64" => "((word >> 16) & 0xffff_ffff) as i64";

        "record.rs": "word 0 with bits above", "word >> 32 != 0 || group.own" => "group.own";
        "record.rs": "Q 0", "group.q == 0 || group.q as u32" => "group.q as u32";
        "record.rs": "Q over the size", "if group.q == 0 || group.q as u32 > size(group.w0) {" => "if group.q == 0 {";
        "record.rs": "view over the limit", "record[VIEW] > LARGEST_VIEW || " => "";
        "record.rs": "number over the limit", " || record[NUMBER] > LARGEST_NUMBER {" => "{";
        "record.rs": "place without own head", "if !has(place.heads, own) {" => "if false {";
        "record.rs": "place with too few of W0", "if size(place.heads & group.w0) < group.q as u32 {" => "if false {";
        "record.rs": "place with Q of W0 refused", "size(place.heads & group.w0) < group.q as u32" => "size(place.heads & group.w0) <= group.q as u32";
        "record.rs": "places of one number", "if j != i && number_of(places[j]) == place.number as i64 {" => "if false {";
        "record.rs": "same places refused only if the heads are the same", "j != i && number_of(places[j]) == place.number as i64" => "j != i && places[j] == places[i]";
        "record.rs": "place number 0", "n < 1 || n <= number_of" => "n <= number_of";
        "record.rs": "place not above last primary", "n <= number_of(last_primary) ||" => "n < number_of(last_primary) ||";
        "record.rs": "last primary above word 2", "if number_of(session) > number {" => "if false {";
        "record.rs": "marks with bits above", "if word > 0xffff {" => "if false {";
        "record.rs": "mark of own head", "place.heads & !single(own)," => "place.heads,";
        "record.rs": "marks of a free place", "None => 0,\n            Some(place)" => "None => 0xffff,\n            Some(place)";
        "record.rs": "marks outside the place", "if !within(bits_heads(word), allowed) {" => "if false {";
        "record.rs": "53 words", "if record.len() != WORDS {\n        return None;" => "if record.len() < WORDS {\n        return None;";
        "record.rs": "outside heads start with W0", "if has(group.w0, group.own) {" => "if true {";
        "record.rs": "core heads start with none", "if has(group.w0, group.own) {" => "if false {";
        "record.rs": "formed for all heads at the start", "if has(group.w0, q) {" => "if true {";
        "record.rs": "another default of Q", "let q = if q == 0 { 1 } else { q };" => "let q = if q == 0 { size(w0) as u8 / 2 + 1 } else { q };";
        "record.rs": "no default of Q", "let q = if q == 0 { 1 } else { q };" => "";
        "record.rs": "head 16 starts", "head as usize >= HEADS || w0 == 0" => "head as usize > HEADS || w0 == 0";
        "record.rs": "Q over the size starts", "|| w0 == 0 || q as u32 > size(w0) {" => "|| w0 == 0 {";

        "stores.rs": "one store too many", "done as u64 >= budget" => "done as u64 > budget";
        "stores.rs": "budget read as 32 bits", "done as u64 >= budget" => "done as u32 >= budget as u32";
        "stores.rs": "recovery of what stays broken", "if !whole(&after) {" => "if false {";
        "stores.rs": "recovery refuses what is not whole before", "if !whole(&after) {" => "if !whole(record) {";
        "stores.rs": "word 2 raised by word 3 only", "greatest = greatest.max(bits_number(now[PLACE + i]));" => "";
        "stores.rs": "word 2 set, not raised", "if greatest >= 0 && now[NUMBER] < greatest as u64 {" => "if greatest >= 0 {";
        "stores.rs": "last formed not set", "if has(bits_heads(primary), q) {" => "if false {";
        "stores.rs": "places below only", "bits_number(now[PLACE + i]) <= bits_number(primary)" => "bits_number(now[PLACE + i]) < bits_number(primary)";
        "stores.rs": "places not cleared", "bits_number(now[PLACE + i]) <= bits_number(primary)" => "false";
        "stores.rs": "free marks kept", "if now[PLACE + i] == 0 {" => "if false {";
        "stores.rs": "marks zeroed with their place", "store(&mut now, PLACE + i, 0);" => "store(&mut now, PLACE + i, 0); store(&mut now, MARKS + i, 0);";
        "stores.rs": "words stored that do not change", "if now[word] != value {" => "if true {";

        "head_session.rs": "view 0 fits", "|| session.view == 0 ||" => "||";
        "head_session.rs": "another view fits", "session.view != record.view || " => "";
        "head_session.rs": "heard from outside M", "!within(heard, session.members) || " => "";
        "head_session.rs": "own head not heard", " || !has(heard, own) {" => "{";
        "head_session.rs": "held states not judged", "if rules_4_to_7(q, &state).is_err() {" => "if false {";
        "head_session.rs": "too many places held", "return false;\n        };\n        if rules" => "continue;\n        };\n        if rules";
        "head_session.rs": "own slot judged too (reading 4)", "if q == own || !has(session.states_heard, q) {" => "if !has(session.states_heard, q) {";
        "head_session.rs": "all slots judged (reading 4)", "if q == own || !has(session.states_heard, q) {" => "if false {";
        "head_session.rs": "decided with states missing", "if session.is_decided() && " => "if false && ";
        "head_session.rs": "attempted without its place", "Stage::Attempted => record.places.contains(&this)," => "Stage::Attempted => true,";
        "head_session.rs": "formed without its primary", "record.last_primary == this && session.attempts_heard" => "session.attempts_heard";
        "head_session.rs": "formed with attempts missing", "record.last_primary == this && session.attempts_heard == session.members" => "record.last_primary == this";
        "head_session.rs": "places after the count kept (reading 5)", "places: self.places[..count].to_vec()," => "places: if self.places[count..].iter().any(|&w| w != 0) { vec![0] } else { self.places[..count].to_vec() },";

        "calls.rs": "session not looked at", "if !fits(session, &whole) {" => "if false {";
        "calls.rs": "enter: refusal 5 before 4", "refuse_if(!has(members, whole.group.own), Refusal::NotAMember)?;\n    refuse_if(view <= whole.view, Refusal::OldView)?;" => "refuse_if(view <= whole.view, Refusal::OldView)?;\n    refuse_if(!has(members, whole.group.own), Refusal::NotAMember)?;";
        "calls.rs": "enter the same view", "view <= whole.view" => "view < whole.view";
        "calls.rs": "own attempt not heard", "next.attempts_heard = single(whole.group.own);" => "next.attempts_heard = 0;";
        "calls.rs": "old states kept by enter", "let mut next = HeadSession::none();" => "let mut next = session;";
        "calls.rs": "cut enter keeps the session", "if !make(record, &stores, budget) {\n        return (Answer::Cut, HeadSession::none());\n    }\n    let mut next = HeadSession::none();" => "if !make(record, &stores, budget) {\n        return (Answer::Cut, session);\n    }\n    let mut next = HeadSession::none();";
        "calls.rs": "hear state: 6 before 3", "    let whole = open(record, session)?;\n    let Ok(Frame::State {" => "    let whole = open(record, session)?;\n    some_session(session)?;\n    let Ok(Frame::State {";
        "calls.rs": "hear state: heard again", "has(session.states_heard, sender) || sender == whole.group.own," => "sender == whole.group.own,";
        "calls.rs": "hear state: state not kept", "next.held[sender] = Held::of(&state);" => "";
        "calls.rs": "hear attempt: closed taken", "refuse_if(!has(session.members, sender), Refusal::NotAMember)?;\n    refuse_if(session.stage == Stage::Closed, Refusal::Closed)?;" => "refuse_if(!has(session.members, sender), Refusal::NotAMember)?;";
        "calls.rs": "hear attempt: 8 before 12", "    refuse_if(session.stage == Stage::Closed, Refusal::Closed)?;\n    refuse_if(\n        has(session.attempts_heard, sender) || sender == whole.group.own,\n        Refusal::AlreadyHeard,\n    )?;" => "    refuse_if(\n        has(session.attempts_heard, sender) || sender == whole.group.own,\n        Refusal::AlreadyHeard,\n    )?;\n    refuse_if(session.stage == Stage::Closed, Refusal::Closed)?;";
        "calls.rs": "hear attempt: heard again", "has(session.attempts_heard, sender) || sender == whole.group.own," => "sender == whole.group.own,";
        "calls.rs": "hear attempt: only once decided", "next.attempts_heard |= single(sender);" => "if next.is_decided() { next.attempts_heard |= single(sender); }";

        "calls.rs": "a: same number marked", "number_of(q.last_formed[p]) < s.number as i64" => "number_of(q.last_formed[p]) <= s.number as i64";
        "calls.rs": "a: heads outside the place marked", "if has(s.heads, q.head) && number_of" => "if number_of";
        "calls.rs": "a: old marks lost", "let mut word = marks[i];" => "let mut word = 0;";
        "calls.rs": "a: marks stored though unchanged", "if word != marks[i] {" => "if true {";
        "calls.rs": "a: last primary looked at", "number_of(q.last_formed[p]) < s.number as i64" => "number_of(q.last_primary) < s.number as i64";
        "calls.rs": "a: own last formed for q looked at", "number_of(q.last_formed[p]) < s.number as i64" => "number_of(whole.last_formed[q.head]) < s.number as i64";
        "calls.rs": "a: q's last formed for q looked at", "number_of(q.last_formed[p]) < s.number as i64" => "number_of(q.last_formed[q.head]) < s.number as i64";
        "calls.rs": "b: highest q on a tie", "number_of(q.last_formed[p]) > number_of(best)" => "number_of(q.last_formed[p]) >= number_of(best)";
        "calls.rs": "b: same number adopted", "adopted.number as i64 > number_of(last_primary)" => "adopted.number as i64 >= number_of(last_primary)";
        "calls.rs": "b: no adoption", "adopted.number as i64 > number_of(last_primary)" => "false";
        "calls.rs": "b: word 2 not raised", "if number < adopted.number {" => "if false {";
        "calls.rs": "b: word 2 stored always", "if number < adopted.number {" => "if number <= adopted.number {";
        "calls.rs": "b: word 2 stored first", "stores.push((PRIMARY, adopted.word()));\n            if number < adopted.number {\n                number = adopted.number;\n                stores.push((NUMBER, number as u64));\n            }" => "if number < adopted.number {\n                number = adopted.number;\n                stores.push((NUMBER, number as u64));\n            }\n            stores.push((PRIMARY, adopted.word()));";
        "calls.rs": "b: last formed for own head only", "for h in heads_in(adopted.heads) {" => "for h in heads_in(adopted.heads & single(p)) {";
        "calls.rs": "b: last formed for the heads of M only", "for h in heads_in(adopted.heads) {" => "for h in heads_in(adopted.heads & m) {";
        "calls.rs": "b: place of the same number kept", "if s.number <= adopted.number {" => "if s.number < adopted.number {";
        "calls.rs": "c: one mark is enough", ".all(|h| h == p || has(marks[i], h))" => ".any(|h| h != p && has(marks[i], h))";
        "calls.rs": "c: marks not looked at", "if all_marked || disowned {" => "if disowned {";
        "calls.rs": "c: lists not looked at", "if all_marked || disowned {" => "if all_marked {";
        "calls.rs": "c: same number with other heads left out", "&& (lower || other)" => "&& lower";
        "calls.rs": "c: lower left out", "&& (lower || other)" => "&& other";
        "calls.rs": "c: listed places cleared too", "&& !q.places.contains(&s) &&" => "&&";
        "calls.rs": "c: listed by number only", "!q.places.contains(&s)" => "!q.places.iter().any(|t| t.number == s.number)";
        "calls.rs": "c: heads outside the place asked", "has(s.heads, q.head) && !q.places" => "!q.places";
        "calls.rs": "c: marks of before a", "|| has(marks[i], h))" => "|| has(whole.marks[i], h))";
        "calls.rs": "c: marks word not stored", "    stores.push((PLACE + i, 0));\n    stores.push((MARKS + i, 0));\n}" => "    stores.push((PLACE + i, 0));\n}";
        "calls.rs": "c: marks word stored only if it changes", "    places[i] = None;\n    marks[i] = 0;\n    stores.push((PLACE + i, 0));\n    stores.push((MARKS + i, 0));" => "    places[i] = None;\n    stores.push((PLACE + i, 0));\n    if marks[i] != 0 { stores.push((MARKS + i, 0)); }\n    marks[i] = 0;";
        "calls.rs": "c: marks word stored first", "    stores.push((PLACE + i, 0));\n    stores.push((MARKS + i, 0));\n}" => "    stores.push((MARKS + i, 0));\n    stores.push((PLACE + i, 0));\n}";
        "calls.rs": "d: own number only", "highest = highest.max(q.number);" => "";
        "calls.rs": "d: numbers of others only", "let mut highest = number;" => "let mut highest = others.iter().map(|q| q.number).min().unwrap_or(number);";
        "calls.rs": "d: highest head on a tie", "number_of(theirs) > number_of(highest_primary)" => "number_of(theirs) >= number_of(highest_primary)";
        "calls.rs": "d: own primary as before", "let theirs = if h == p {\n            last_primary" => "let theirs = if h == p {\n            whole.last_primary";
        "calls.rs": "d: own primary last", "for h in heads_in(m) {\n        let theirs" => "for h in heads_in(m & !single(p)).into_iter().chain([p]) {\n        let theirs";
        "calls.rs": "d: sessions of the primary's number weighed", "if s.number as i64 > number_of(highest_primary) {" => "if s.number as i64 >= number_of(highest_primary) {";
        "calls.rs": "d: all listed sessions weighed", "if s.number as i64 > number_of(highest_primary) {" => "if true {";
        "calls.rs": "d: no listed session weighed", "if s.number as i64 > number_of(highest_primary) {" => "if false {";
        "calls.rs": "d: own places as before", "let own_places = places.iter().flatten();" => "let own_places = whole.places.iter().flatten();";
        "calls.rs": "d: own places not weighed", "let own_places = places.iter().flatten();" => "let own_places = places[..0].iter().flatten();";
        "calls.rs": "d: others' places not weighed", "others.iter().flat_map(|q| q.places.iter())" => "others[..0].iter().flat_map(|q| q.places.iter())";
        "calls.rs": "d: only the latest listed session weighed", "let listed = own_places.chain" => "let listed = places.iter().flatten().max_by_key(|s| s.number).into_iter().chain(own_places.filter(|_| false)).chain";
        "calls.rs": "d: the primary not weighed", "vec![highest_primary.map_or(0, |s| s.heads)]" => "vec![]";
        "calls.rs": "d: S and T exchanged", "sub_quorum(whole.group.w0, whole.group.q, s, m)" => "sub_quorum(whole.group.w0, whole.group.q, m, s)";
        "calls.rs": "d: numbers tested before the quorum", "if !passes {" => "if highest as u64 >= LARGEST_NUMBER {\n        return (stores, Answer::NumbersRunOut);\n    }\n    if !passes {";
        "calls.rs": "d: place tested before the numbers", "if highest as u64 >= LARGEST_NUMBER {" => "if places.iter().all(|s| s.is_some()) {\n        return (stores, Answer::NoPlace);\n    }\n    if highest as u64 >= LARGEST_NUMBER {";
        "calls.rs": "d: last number not used", "highest as u64 >= LARGEST_NUMBER" => "highest as u64 + 1 >= LARGEST_NUMBER";
        "calls.rs": "d: highest free place", "places.iter().position(|s| s.is_none())" => "places.iter().rposition(|s| s.is_none())";
        "calls.rs": "d: place free before c", "places.iter().position(|s| s.is_none())" => "whole.places.iter().position(|s| s.is_none())";
        "calls.rs": "d: own number and 1", "number: highest + 1," => "number: number.wrapping_add(1),";
        "calls.rs": "d: word 2 before the place", "    stores.push((PLACE + free, attempt.word()));\n    stores.push((NUMBER, attempt.number as u64));" => "    stores.push((NUMBER, attempt.number as u64));\n    stores.push((PLACE + free, attempt.word()));";
        "calls.rs": "d: only the latest ambiguous session kept", "    stores.push((PLACE + free, attempt.word()));" => "    for i in 0..PLACES {\n        if places[i].is_some() {\n            clear(i, &mut places, &mut marks, &mut stores);\n        }\n    }\n    stores.push((PLACE + free, attempt.word()));";
        "calls.rs": "d: refused attempts keep nothing of a to c", "        return (stores, Answer::NoQuorum);" => "        return (Stores::new(), Answer::NoQuorum);";
        "calls.rs": "decide: no quorum leaves the session open", "next.stage = if answer == Answer::Attempted {" => "next.stage = if answer == Answer::NoQuorum {\n        Stage::Undecided\n    } else if answer == Answer::Attempted {";
        "calls.rs": "decide: states forgotten after", "    let mut next = session;\n    next.stage = if" => "    let mut next = session;\n    next.held = HeadSession::none().held;\n    next.stage = if";
        "calls.rs": "decide: with states missing", "refuse_if(\n        session.states_heard != session.members,\n        Refusal::NotYetHeard,\n    )?;" => "";
        "calls.rs": "decide: closed gives 12", "    refuse_if(session.is_decided(), Refusal::TooLate)?;\n    refuse_if(\n        session.states_heard" => "    refuse_if(session.stage == Stage::Closed, Refusal::Closed)?;\n    refuse_if(session.is_decided(), Refusal::TooLate)?;\n    refuse_if(\n        session.states_heard";

        "calls.rs": "form: with attempts missing", "    refuse_if(\n        session.attempts_heard != session.members,\n        Refusal::NotYetHeard,\n    )?;" => "";
        "calls.rs": "form: again", "refuse_if(session.stage == Stage::Formed, Refusal::TooLate)?;" => "";
        "calls.rs": "form: before deciding gives 9", "    refuse_if(session.stage == Stage::Undecided, Refusal::TooEarly)?;\n    refuse_if(\n        session.attempts_heard" => "    refuse_if(session.stage == Stage::Undecided && session.attempts_heard == session.members, Refusal::TooEarly)?;\n    refuse_if(\n        session.attempts_heard";
        "calls.rs": "form: does nothing", "let mut stores: Stores = vec![(PRIMARY, formed.word())];" => "let mut stores: Stores = vec![(PRIMARY, formed.word())];\n    if true { let mut next = session; next.stage = Stage::Formed; return (Answer::Formed, next); }";
        "calls.rs": "form: only its own place cleared", "if whole.places[i].is_some() {" => "if whole.places[i] == Some(formed) {";
        "calls.rs": "form: marks word stored only if it changes", "            stores.push((PLACE + i, 0));\n            stores.push((MARKS + i, 0));" => "            stores.push((PLACE + i, 0));\n            if whole.marks[i] != 0 { stores.push((MARKS + i, 0)); }";
        "calls.rs": "form: free places stored too", "if whole.places[i].is_some() {" => "if true {";
        "calls.rs": "form: last formed of own head only", "for h in heads_in(session.members) {\n        stores" => "for h in heads_in(single(whole.group.own)) {\n        stores";
        "calls.rs": "form: word 3 last", "let mut stores: Stores = vec![(PRIMARY, formed.word())];" => "let mut stores: Stores = vec![];\n    stores.push((VIEW, whole.view as u64));";

        "calls.rs": "write: places not sorted", "listed.sort_by_key(|s| s.number);" => "";
        "calls.rs": "write: places falling", "listed.sort_by_key(|s| s.number);" => "listed.sort_by_key(|s| u32::MAX - s.number);";
        "calls.rs": "write: less room taken", "output.len() < STATE_CHARACTERS" => "output.len() < 227";
        "calls.rs": "write: 13 before 10", "    refuse_if(session.is_decided(), Refusal::TooLate)?;\n    refuse_if(output.len() < STATE_CHARACTERS, Refusal::ShortOutput)?;" => "    refuse_if(output.len() < STATE_CHARACTERS, Refusal::ShortOutput)?;\n    refuse_if(session.is_decided(), Refusal::TooLate)?;";
        "calls.rs": "write: 13 first", "    let whole = open(record, session)?;\n    some_session(session)?;\n    refuse_if(session.is_decided(), Refusal::TooLate)?;\n    refuse_if(output.len() < STATE" => "    refuse_if(output.len() < STATE_CHARACTERS, Refusal::ShortOutput)?;\n    let whole = open(record, session)?;\n    some_session(session)?;\n    refuse_if(session.is_decided(), Refusal::TooLate)?;\n    refuse_if(output.len() < STATE";
        "calls.rs": "write: state after deciding", "    refuse_if(session.is_decided(), Refusal::TooLate)?;\n    refuse_if(output.len() < STATE_CHARACTERS" => "    refuse_if(output.len() < STATE_CHARACTERS";
        "calls.rs": "write: attempt before deciding", "    refuse_if(session.stage == Stage::Undecided, Refusal::TooEarly)?;\n    refuse_if(output.len() < ATTEMPT" => "    refuse_if(output.len() < ATTEMPT";
        "calls.rs": "write: attempt only until formed", "    refuse_if(session.stage == Stage::Undecided, Refusal::TooEarly)?;\n    refuse_if(output.len() < ATTEMPT" => "    refuse_if(session.stage == Stage::Undecided, Refusal::TooEarly)?;\n    refuse_if(session.stage == Stage::Formed, Refusal::TooLate)?;\n    refuse_if(output.len() < ATTEMPT";
        "calls.rs": "write: the rest of the output cleared", "output[..line.len()].copy_from_slice(line);" => "output.fill(0);\n    output[..line.len()].copy_from_slice(line);";

        "bench.rs": "upper case taken", "b'a'..=b'f' => Some(c - b'a' + 10)," => "b'a'..=b'f' => Some(c - b'a' + 10), b'A'..=b'F' => Some(c - b'A' + 10),";
        "bench.rs": "CR before the newline taken", "line.strip_suffix(b\"\\n\")?" => "line.strip_suffix(b\"\\r\\n\").or_else(|| line.strip_suffix(b\"\\n\"))?";
        "bench.rs": "last bytes without newline taken", "line.strip_suffix(b\"\\n\")?" => "line.strip_suffix(b\"\\n\").unwrap_or(line)";
        "bench.rs": "last bytes without newline not counted", "Ok(!line.is_empty())" => "Ok(line.ends_with(b\"\\n\") || line.len() == most)";
        "bench.rs": "a long line counted in parts", "input.skip_until(b'\\n')?;" => "";
        "bench.rs": "bytes after an event passed over", "(0x14, 2) =>" => "(0x14, 2..) =>";
        "bench.rs": "low byte first", "u16::from_be_bytes" => "u16::from_le_bytes";
        "bench.rs": "heads over 15 taken round", "Some(bytes[at] as usize).filter(|&h| h < HEADS)" => "Some(bytes[at] as usize % HEADS)";
        "bench.rs": "to and from exchanged", "(0x13, 4) => Event::DeliverState {\n            to: head(1)?,\n            from: head(2)?," => "(0x13, 4) => Event::DeliverState {\n            from: head(1)?,\n            to: head(2)?,";
        "bench.rs": "k of one byte", "stores: two(2)," => "stores: bytes[3] as u16,";
        "bench.rs": "view 0 not of the form", "(0x11, 7) => Event::View {" => "(0x11, 7) if four(1) != 0 => Event::View {";
        "bench.rs": "view without heads not of the form", "(0x11, 7) => Event::View {" => "(0x11, 7) if two(5) != 0 => Event::View {";

        "bench.rs": "14 before 3", "None => Err(NO_EVENT)," => "None if self.heads.is_empty() => Err(OUT_OF_PLACE),\n            None => Err(NO_EVENT),";
        "bench.rs": "a group that start refuses gives 14", "return Err(NO_EVENT);" => "return Err(OUT_OF_PLACE);";
        "bench.rs": "a group that start refuses gives 1", "return Err(NO_EVENT);" => "return Err(1);";
        "bench.rs": "a refused group after a group gives 14", "        let mut heads = Vec::new();\n        for own" => "        if self.heads.len() > 0 { return Err(OUT_OF_PLACE); }\n        let mut heads = Vec::new();\n        for own";
        "bench.rs": "a second group line starts anew", "if !self.heads.is_empty() {" => "if false {";
        "bench.rs": "a group with Q 0 refused", "if start(" => "if q == 0 || start(";
        "bench.rs": "1,001 views", "self.views.len() >= VIEWS" => "self.views.len() > VIEWS";
        "bench.rs": "999 views", "self.views.len() >= VIEWS" => "self.views.len() + 1 >= VIEWS";
        "bench.rs": "view numbers past 1,000 refused", "self.views.len() >= VIEWS" => "number > 1000";
        "bench.rs": "a view announced twice taken", "self.members(number).is_some() || self.views.len()" => "self.views.len()";
        "bench.rs": "a view announced twice counted", "        if self.members(number).is_some() ||" => "        if self.members(number).is_some() { self.views.push((number, heads)); return Err(OUT_OF_PLACE); }\n        if";
        "bench.rs": "a head outside the view gives 14", "self.members(view).ok_or" => "self.members(view).filter(|m| (m >> head) & 1 == 1).ok_or";
        "bench.rs": "which over 3 gives 3", "let line = self.heads[from].sent.get(which as usize);" => "if which > 3 { return Err(NO_EVENT); }\n        let line = self.heads[from].sent.get(which as usize);";
        "bench.rs": "a line not kept gives 3", "line.cloned().ok_or(OUT_OF_PLACE)" => "line.cloned().ok_or(NO_EVENT)";

        "bench.rs": "five lines kept", "pub const KEPT: usize = 4;" => "pub const KEPT: usize = 5;";
        "bench.rs": "three lines kept", "pub const KEPT: usize = 4;" => "pub const KEPT: usize = 3;";
        "bench.rs": "which counted from the oldest", "sent.get(which as usize)" => "sent.iter().rev().nth(which as usize)";
        "bench.rs": "attempts kept apart from states", "self.sent.truncate(KEPT);" => "let mut of_kind = 0;\n            self.sent.retain(|l| { of_kind += (l[1] == line[1]) as usize; l[1] != line[1] || of_kind <= KEPT });";
        "bench.rs": "only wanted kinds counted", "let line = self.kept(from, which)?;\n                word(self.heads[to].call(|r, s| calls::hear_state" => "let line = self.heads[from].sent.iter().filter(|l| l[1] == b'1').nth(which as usize).cloned().ok_or(OUT_OF_PLACE)?;\n                word(self.heads[to].call(|r, s| calls::hear_state";
        "bench.rs": "attempting sends nothing", "if answer == Answer::Attempted {" => "if false {";
        "bench.rs": "a decision sends the attempt whatever its answer", "if answer == Answer::Attempted {" => "if !matches!(answer, Answer::Refused(_)) {\n            self.sent.insert(0, b\"020000000100\\n\".to_vec());";
        "bench.rs": "a cut entry sends", "if answer == Answer::Entered {" => "if answer == Answer::Cut { self.sent.insert(0, Vec::new()); }\n        if answer == Answer::Entered {";
        "bench.rs": "an attempt delivered as a state", "calls::hear_attempt(r, s, &line)" => "calls::hear_state(r, s, &line)";
        "bench.rs": "kept lines lost by recovery", "let answer = recover(&mut self.record, stores);" => "self.sent.clear();\n        let answer = recover(&mut self.record, stores);";
        "bench.rs": "recovery keeps the session", "if !matches!(answer, Answer::Refused(_)) {" => "if false {";
        "bench.rs": "recovery is not cut", "recover(&mut self.record, stores)" => "recover(&mut self.record, stores.max(1000))";

        "bench.rs": "a cut is never used up", "self.armed.take().map_or" => "self.armed.map_or";
        "bench.rs": "a cut used up by an event refused with 14", "let members = self.members(view).ok_or(OUT_OF_PLACE)?;" => "let Some(members) = self.members(view) else { self.heads[head].armed = None; return Err(OUT_OF_PLACE) };";
        "bench.rs": "a cut used up by a line refused with 3", "None => Err(NO_EVENT)," => "None => { for h in &mut self.heads { h.armed = None; } Err(NO_EVENT) }";
        "bench.rs": "a cut used up by a delivery", "word(self.heads[to].call(|r, s| calls::hear_state" => "self.heads[to].armed = None;\n                word(self.heads[to].call(|r, s| calls::hear_state";
        "bench.rs": "a cut kept by a refused entry", "let answer = self.call(|r, s| calls::enter(r, s, view, members, stores));" => "let answer = self.call(|r, s| calls::enter(r, s, view, members, stores));\n        if matches!(answer, Answer::Refused(_)) && stores != u64::MAX { self.armed = Some(stores as u16); }";
        "bench.rs": "a cut kept by a refused decision", "let answer = self.call(|r, s| calls::decide(r, s, stores));" => "let answer = self.call(|r, s| calls::decide(r, s, stores));\n        if matches!(answer, Answer::Refused(_)) && stores != u64::MAX { self.armed = Some(stores as u16); }";
        "bench.rs": "a cut kept by a refused form", "let answer = head.call(|r, s| calls::form(r, s, stores));" => "let answer = head.call(|r, s| calls::form(r, s, stores));\n        if matches!(answer, Answer::Refused(_)) && stores != u64::MAX { head.armed = Some(stores as u16); }";
        "bench.rs": "a later cut does not replace", "self.heads[head].armed = Some(stores);" => "self.heads[head].armed.get_or_insert(stores);";
        "bench.rs": "one cut for all heads", "self.heads[head].armed = Some(stores);" => "for h in &mut self.heads { h.armed = Some(stores); }";

        "bench.rs": "sessions in the order of forming", "all.sort_by_key(|s| s.number);" => "all.rotate_right(1);";
        "bench.rs": "sessions in falling number", "all.sort_by_key(|s| s.number);" => "all.sort_by_key(|s| u32::MAX - s.number);";
        "bench.rs": "shared with the core group", "let shared = session.heads & before;" => "let shared = if before == 0 { 0 } else { session.heads & self.w0 };";
        "bench.rs": "the first shares with itself", "let mut before = 0;" => "let mut before = self.w0;";
        "bench.rs": "the core group's session not printed", "all.push(Session {\n            heads: self.w0,\n            number: 0,\n        });" => "";
        "bench.rs": "sessions printed without a group line", "        if self.heads.is_empty() {\n            return String::new();\n        }" => "";
        "bench.rs": "a cut form not listed", "(after != before, session_in(after))" => "(answer == Answer::Formed, session_in(after))";
        "bench.rs": "a form without a store listed", "(after != before, session_in(after))" => "(!matches!(answer, Answer::Refused(_)), session_in(after))";
        "bench.rs": "a session listed once for each head", "if !self.formed.contains(&session) {" => "if true {";
        "bench.rs": "sessions of the same heads listed once", "if !self.formed.contains(&session) {" => "if !self.formed.iter().any(|f| f.heads == session.heads) {";
        "bench.rs": "session numbers in hexadecimal", "F {:04x} {} {shared:04x}" => "F {:04x} {:x} {shared:04x}";
        "bench.rs": "heads in upper case", "F {:04x} {} {shared:04x}" => "F {:04X} {} {shared:04x}";
    }
}
