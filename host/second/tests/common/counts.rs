//! How often each class, refusal and length has occurred, held to what can occur.
use lvl_addin::answer::Refusal;
use std::collections::BTreeMap;
use std::fmt::Debug;

/// How many answers there were of each length, by whether all but that length is accepted.
pub type AnswerLengths = BTreeMap<(usize, bool), u64>;

/// Counts an answer by its length, and by whether all but that length is accepted.
pub fn count_answer(lengths: &mut AnswerLengths, length: usize, refusal: Option<Refusal>) {
    let accepted = refusal.is_none_or(|refusal| refusal.number == 5);
    *lengths.entry((length, accepted)).or_default() += 1;
}

/// Holds the cases of each length up to the longest to be at least so many.
pub fn assert_lengths(what: &str, longest: usize, least: u64, seen: impl Fn(usize) -> Option<u64>) {
    for length in 0..=longest {
        let cases = seen(length).unwrap_or(0);
        assert!(cases >= least, "only {cases} {what} of {length} bytes");
    }
}

/// The same for lent bytes, both where all but their length is accepted and where it is not.
pub fn assert_lent_lengths(what: &str, lengths: &AnswerLengths, longest: usize, least: u64) {
    for accepted in [true, false] {
        let what = format!("{what} (accepted {accepted})");
        assert_lengths(&what, longest, least, |length| {
            lengths.get(&(length, accepted)).copied()
        });
    }
}

/// Holds what has occurred to all that can, each at least so often.
pub fn assert_occurred<T>(what: &str, seen: &BTreeMap<T, u64>, can_occur: &[T], least: u64)
where
    T: Ord + Copy + Debug,
{
    let mut listed = can_occur.to_vec();
    listed.sort_unstable();
    assert!(
        seen.keys().eq(&listed),
        "what occurs is not what can: {what} {:?}, and can {listed:?}",
        seen.keys()
    );
    for (one, &cases) in seen {
        assert!(cases >= least, "only {cases} {what} {one:?}");
    }
}
