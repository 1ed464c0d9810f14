//! What request 5 promises of runs that differ in their limits alone.

use oracle::{Limits, Outcome, DEEPEST};

use crate::case::Case;

/// What a run with other limits has to give.
#[derive(Clone, Copy, Debug, Eq, PartialEq)]
pub enum Law {
    /// The same outcome, calls included, and the same areas.
    Same,
    /// Its last call is refused: it gives neither 0 nor 10, and enters all calls but that.
    OneShort,
    /// Nothing is promised, after a limit or a stop: it is only one more run to compare.
    Free,
}

impl Law {
    /// Of the two outcomes. Where all has to be the same, the caller compares the areas.
    pub fn allows(self, first: Outcome, other: Outcome) -> bool {
        match self {
            Law::Same => other == first,
            Law::OneShort => !is_promised(other) && other.calls + 1 == first.calls,
            Law::Free => true,
        }
    }
}

/// 0 or 10: what larger limits leave as it is.
pub fn is_promised(outcome: Outcome) -> bool {
    matches!(outcome.number, 0 | 10)
}

/// The limits that a started case is run with once more: both larger by one, both as large as can
/// be, and the call limit at its counted calls, one above and one below.
pub fn others(case: &Case, first: Outcome) -> impl Iterator<Item = (Limits, Law)> {
    let own = Limits { depth: case.depth_limit, call: case.call_limit };
    let calls = u32::try_from(first.calls).expect("no case has patience for more");
    let with_call = |call| Limits { call, ..own };
    let larger = Limits { depth: DEEPEST.min(own.depth + 1), call: above(own.call) };
    let largest = Limits { depth: DEEPEST, call: 0 };
    let same = [larger, largest, with_call(calls), with_call(calls + 1)];
    // A limit of 0 is none.
    let one_short = (calls > 1).then(|| (with_call(calls - 1), Law::OneShort));
    let is_new = move |at: usize| same[at] != own && !same[..at].contains(&same[at]);
    let same = (0..same.len()).filter(move |at| is_new(*at)).map(move |at| (same[at], Law::Same));
    let promised = is_promised(first);
    same.chain(one_short).map(move |(limits, law)| (limits, if promised { law } else { Law::Free }))
}

/// A call limit that is larger by one; none stays none.
fn above(call_limit: u32) -> u32 {
    match call_limit {
        0 => 0,
        limit => limit.saturating_add(1),
    }
}

/// A limit above 0 bounds the calls, and 11 comes exactly at it; a refused run has none.
pub fn bounds_calls(case: &Case, outcome: Outcome) -> bool {
    let limit = u64::from(case.call_limit);
    match outcome.number {
        _ if outcome.is_refusal() => outcome.calls == 0,
        11 => limit > 0 && outcome.calls == limit,
        _ => limit == 0 || outcome.calls <= limit,
    }
}

#[cfg(test)]
mod tests {
    use super::*;

    fn after(number: u32, depth: u32, call: u32, calls: u64) -> Vec<(u32, u32, Law)> {
        let case = Case { depth_limit: depth, call_limit: call, ..Case::new(&[], "", "") };
        let first = Outcome { number, place: 0, count: 0, calls };
        others(&case, first).map(|(limits, law)| (limits.depth, limits.call, law)).collect()
    }

    fn of(depth: u32, call: u32, calls: u64) -> Vec<(u32, u32, Law)> {
        after(0, depth, call, calls)
    }

    #[test]
    fn the_other_limits() {
        use Law::{OneShort, Same};
        assert_eq!(
            of(3, 9, 7),
            [(4, 10, Same), (1_024, 0, Same), (3, 7, Same), (3, 8, Same), (3, 6, OneShort)]
        );
        assert_eq!(of(3, 8, 7), [(4, 9, Same), (1_024, 0, Same), (3, 7, Same), (3, 6, OneShort)]);
        assert_eq!(of(1_024, 0, 2), [(1_024, 2, Same), (1_024, 3, Same), (1_024, 1, OneShort)]);
        assert_eq!(of(1_023, 0, 1), [(1_024, 0, Same), (1_023, 1, Same), (1_023, 2, Same)]);
        assert_eq!(of(1_024, 0, 0), [(1_024, 1, Same)]);
        assert_eq!(of(1_024, u32::MAX, 0), [(1_024, 0, Same), (1_024, 1, Same)]);
    }

    #[test]
    fn after_a_limit_nothing_is_promised() {
        use Law::Free;
        assert_eq!(
            after(11, 3, 7, 7),
            [(4, 8, Free), (1_024, 0, Free), (3, 8, Free), (3, 6, Free)]
        );
    }
}
