//! "The quorum test".

use crate::answers::Refusal;
use crate::group::{has, highest_head, size, Set};

/// The quorum test as a call: refusal 1 if W0 is empty, Q is 0, or Q is over
/// the size of W0.
pub fn quorum_test(w0: Set, q: u8, s: Set, t: Set) -> Result<bool, Refusal> {
    if w0 == 0 || q as u32 > size(w0) || q == 0 {
        return Err(Refusal::BadStart);
    }
    Ok(sub_quorum(w0, q, s, t))
}

/// Sub-quorum of S by T.
pub fn sub_quorum(w0: Set, q: u8, s: Set, t: Set) -> bool {
    // It is false for S none, given as the empty set.
    if s == 0 {
        return false;
    }
    let core = size(t & w0);
    if core < q as u32 {
        return false;
    }
    let shared = size(s & t);
    let first = shared * 2 > size(s);
    let second = shared * 2 == size(s) && highest_head(s).is_some_and(|h| has(t, h));
    // T has more heads of W0 than the size of W0 less Q.
    let third = core > size(w0) - q as u32;
    first || second || third
}
