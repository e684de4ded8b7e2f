//! The chain over all formed sessions.

use second::group::Session;

/// Checks that the formed sessions, in order of number and with the core's
/// first, have numbers of their own and each share a head with the one
/// before. Hands back the chain, each session once.
pub fn chain(core: u16, formed: &[Session]) -> Result<Vec<Session>, String> {
    let mut all = vec![Session {
        heads: core,
        number: 0,
    }];
    all.extend(formed);
    all.sort_by_key(|session| (session.number, session.heads));
    all.dedup();
    for pair in all.windows(2) {
        if pair[0].number == pair[1].number {
            return Err(format!("two formed sessions have one number: {pair:?}"));
        }
        if pair[0].heads & pair[1].heads == 0 {
            return Err(format!("formed sessions share no head: {pair:?}"));
        }
    }
    Ok(all)
}

#[cfg(test)]
mod tests {
    use super::*;

    fn sessions(all: &[(u16, u32)]) -> Vec<Session> {
        let session = |&(heads, number)| Session { heads, number };
        all.iter().map(session).collect()
    }

    #[test]
    fn a_chain_counts_each_session_once() {
        let formed = sessions(&[(0x3, 5), (0x7, 2), (0x3, 5)]);
        assert_eq!(chain(0x1f, &formed).map(|all| all.len()), Ok(3));
    }

    #[test]
    fn two_sessions_of_one_number_are_found() {
        let problem = chain(0x1f, &sessions(&[(0x7, 2), (0x3, 2)]));
        assert!(problem.is_err_and(|text| text.contains("one number")));
        let problem = chain(0x1f, &sessions(&[(0x7, 0)]));
        assert!(problem.is_err_and(|text| text.contains("one number")));
    }

    #[test]
    fn no_shared_head_is_found() {
        let problem = chain(0x1f, &sessions(&[(0x7, 1), (0x18, 2)]));
        assert!(problem.is_err_and(|text| text.contains("share no head")));
        let problem = chain(0x1f, &sessions(&[(0x60, 1)]));
        assert!(problem.is_err_and(|text| text.contains("share no head")));
    }
}
