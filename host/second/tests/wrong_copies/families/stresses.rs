//! One for each stress, each two stresses, each kind and each stress that a kind does not use.
use super::{kind_code, slip, SLIP};
use crate::evidence::{EveryRule, GivingStrengths, Wrong};
use lvl_addin::answer::Refusal;
use lvl_second::cells::{Grade, Member};
use lvl_second::exact_strength::{Stress, STRESSES};
use lvl_second::{Paper, StrengthRules};

/// The other stress, where the slip is at this one.
fn confused(stress: Stress) -> Stress {
    let (at, other, _) = SLIP.get();
    if stress as u64 == at {
        Paper::stresses()[other as usize]
    } else {
        stress
    }
}

/// Strength and remainder of another stress.
struct Confused;
impl StrengthRules for Confused {
    fn strength_and_remainder(stress: Stress, member: &Member) -> [u64; 2] {
        Paper::strength_and_remainder(confused(stress), member)
    }
}

/// The strength alone, of another stress.
struct StrengthConfused;
impl StrengthRules for StrengthConfused {
    fn strength_in(stress: Stress, member: &Member) -> u64 {
        Paper::strength_in(confused(stress), member)
    }
}

/// The remainder alone, of another stress.
struct RemainderConfused;
impl StrengthRules for RemainderConfused {
    fn table_value(stress: Stress, grade: Grade) -> u64 {
        Paper::table_value(confused(stress), grade)
    }
}

/// Two stresses in each other's places.
struct PlacesExchanged;
impl StrengthRules for PlacesExchanged {
    fn stresses() -> [Stress; STRESSES] {
        let (one, other, _) = SLIP.get();
        let mut stresses = Paper::stresses();
        stresses.swap(one as usize, other as usize);
        stresses
    }
}

/// Strength and remainder of one stress in each other's places.
struct PairExchanged;
impl StrengthRules for PairExchanged {
    fn strength_and_remainder(stress: Stress, member: &Member) -> [u64; 2] {
        let [strength, remainder] = Paper::strength_and_remainder(stress, member);
        if stress as u64 == SLIP.get().0 {
            [remainder, strength]
        } else {
            [strength, remainder]
        }
    }
}

/// One stress without a remainder.
struct RemainderLeftOut;
impl StrengthRules for RemainderLeftOut {
    fn strength_and_remainder(stress: Stress, member: &Member) -> [u64; 2] {
        let [strength, remainder] = Paper::strength_and_remainder(stress, member);
        let left_out = stress as u64 == SLIP.get().0;
        [strength, if left_out { 0 } else { remainder }]
    }
}

/// One kind that has no strengths.
struct KindRefused;
impl StrengthRules for KindRefused {
    fn unrefused(row: &[u8]) -> Result<Member, Refusal> {
        let member = Paper::unrefused(row)?;
        if kind_code(member.kind) == SLIP.get().0 {
            Err(Refusal { number: 3, cell: 1 })
        } else {
            Ok(member)
        }
    }
}

/// One stress that a kind has no strength in.
struct StressOfKindLeftOut;
impl StrengthRules for StressOfKindLeftOut {
    fn strength_and_remainder(stress: Stress, member: &Member) -> [u64; 2] {
        let (kind, left_out, _) = SLIP.get();
        if (kind, left_out) == (kind_code(member.kind), stress as u64) {
            [0; 2]
        } else {
            Paper::strength_and_remainder(stress, member)
        }
    }
}

macro_rules! keep_the_others {
    ($($family:ident),* $(,)?) => {
        $(keep_rules! { $family [Rules FloorRules SagRules KeptRules] })*
    };
}

keep_the_others!(
    Confused,
    StrengthConfused,
    RemainderConfused,
    PlacesExchanged,
    PairExchanged,
    RemainderLeftOut,
    KindRefused,
    StressOfKindLeftOut,
);

pub fn copies() -> Vec<Wrong> {
    let mut copies = confusions::<Confused>("strength and remainder");
    copies.extend(confusions::<StrengthConfused>("strength"));
    copies.extend(confusions::<RemainderConfused>("remainder"));
    copies.extend(exchanges());
    copies.extend(in_one_stress::<PairExchanged>(
        "strength and remainder exchanged",
    ));
    copies.extend(in_one_stress::<RemainderLeftOut>("no remainder"));
    copies.extend(of_kinds());
    copies
}

fn own<R: EveryRule>(name: String, at: u64, and: u64) -> Wrong {
    slip::<GivingStrengths, R>(name, at, and, 0)
}

/// Every two stresses, either way round.
fn two_stresses() -> impl Iterator<Item = (Stress, Stress)> {
    Paper::stresses().into_iter().flat_map(|one| {
        Paper::stresses()
            .into_iter()
            .filter(move |&other| other != one)
            .map(move |other| (one, other))
    })
}

fn confusions<R: EveryRule>(what: &str) -> Vec<Wrong> {
    let copy = |(stress, other): (Stress, Stress)| {
        let name = format!("{what} in {other:?} for that in {stress:?}");
        own::<R>(name, stress as u64, other as u64)
    };
    two_stresses().map(copy).collect()
}

fn exchanges() -> Vec<Wrong> {
    let copy = |(one, other): (Stress, Stress)| {
        let name = format!("{one:?} and {other:?} in each other's places");
        own::<PlacesExchanged>(name, one as u64, other as u64)
    };
    two_stresses()
        .filter(|&(one, other)| (one as u64) < other as u64)
        .map(copy)
        .collect()
}

fn in_one_stress<R: EveryRule>(what: &str) -> Vec<Wrong> {
    let copy = |stress: Stress| own::<R>(format!("{what} in {stress:?}"), stress as u64, 0);
    Paper::stresses().map(copy).into()
}

fn of_kinds() -> Vec<Wrong> {
    let mut copies = Vec::new();
    for kind in 1..=5 {
        copies.push(own::<KindRefused>(format!("kind {kind} refused"), kind, 0));
        for stress in Paper::stresses() {
            let name = format!("kind {kind} without {stress:?}");
            copies.push(own::<StressOfKindLeftOut>(name, kind, stress as u64));
        }
    }
    copies
}
