//! One for each check of a kind, each pair of checks that can tie, and each pass limit.
use super::{keep_the_requests, kind_code, slip, SLIP};
use crate::evidence::{Checking, Wrong};
use lvl_addin::answer::Verdict;
use lvl_second::{Member, Paper, Rules};

/// One check that a kind lacks.
struct CheckLeftOut;
impl Rules for CheckLeftOut {
    fn applies(check: u32, member: &Member) -> bool {
        let (kind, left_out, _) = SLIP.get();
        Paper::applies(check, member)
            && (kind, left_out) != (kind_code(member.kind), u64::from(check))
    }
}

/// The higher of two checks that are used alike.
struct TieTurned;
impl Rules for TieTurned {
    fn governs(check: u32, utilisation: u64, so_far: (u32, u64)) -> bool {
        let (lower, higher, _) = SLIP.get();
        let tie = utilisation == so_far.1;
        let here = (lower, higher) == (u64::from(so_far.0), u64::from(check));
        tie && here || Paper::governs(check, utilisation, so_far)
    }
}

/// A pass at just the limit taken for a fail, or a fail one beyond it for a pass, where one check of a kind governs.
struct PassLimit;
impl Rules for PassLimit {
    fn judge(member: &Member) -> Verdict {
        let (kind, check, beyond) = SLIP.get();
        let verdict = Paper::judge(member);
        let here = (kind, check) == (kind_code(member.kind), u64::from(verdict.check));
        let turned = here && i64::from(verdict.utilisation) == 1_000_000 + beyond;
        Verdict {
            passes: verdict.passes != turned,
            ..verdict
        }
    }
}

keep_the_requests!(CheckLeftOut, TieTurned, PassLimit);

pub fn copies() -> Vec<Wrong> {
    let mut copies = checks_left_out();
    copies.extend(ties());
    copies.extend(pass_limits());
    copies
}

fn checks_left_out() -> Vec<Wrong> {
    let mut copies = Vec::new();
    for kind in 1..=5 {
        for &check in Paper::kind(kind).map_or(&[][..], Paper::checks) {
            copies.push(slip::<Checking, CheckLeftOut>(
                format!("check {check} left out of kind {kind}"),
                kind,
                check.into(),
                0,
            ));
        }
    }
    copies
}

/// The pairs of strength checks that some kind has.
const PAIRS: [(u64, u64); 8] = [
    (5, 6),
    (7, 8),
    (8, 9),
    (8, 10),
    (8, 11),
    (9, 10),
    (9, 11),
    (10, 11),
];

fn ties() -> Vec<Wrong> {
    let name = |(lower, higher)| format!("check {higher} named where {lower} is used alike");
    let copy = |pair: (u64, u64)| slip::<Checking, TieTurned>(name(pair), pair.0, pair.1, 0);
    PAIRS.into_iter().map(copy).collect()
}

fn pass_limits() -> Vec<Wrong> {
    let mut copies = Vec::new();
    for kind in 1..=5 {
        for &check in Paper::kind(kind).map_or(&[][..], Paper::checks) {
            if check >= 5 {
                for beyond in [0, 1] {
                    let name =
                        format!("check {check} of kind {kind} turned {beyond} beyond the limit");
                    copies.push(slip::<Checking, PassLimit>(
                        name,
                        kind,
                        check.into(),
                        beyond,
                    ));
                }
            }
        }
    }
    copies
}
