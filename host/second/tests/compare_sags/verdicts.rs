//! How often each class and sort of verdict has occurred, and what is demanded of each.
use crate::counts::assert_occurred;
use crate::judged::Judged;
use crate::sorts::SORTS;
use lvl_second::exact::Ratio;
use lvl_second::rows::judged::REGIMES;
use lvl_second::sag_demand::{Sagging, GROWN};
use lvl_second::sags::SagCase;
use std::collections::BTreeMap;

/// The least number of verdicts in a class, for a moisture and of a sort.
const LEAST_IN_CLASS: u64 = 300;
const LEAST_OF_MOISTURE: u64 = 1000;
const LEAST_OF_SORT: u64 = 300;

/// Grade, regime, moisture factor, and whether the beam passes: all that can occur do.
type Class = (u64, u64, u32, bool);

fn every_class() -> Vec<Class> {
    let mut classes = Vec::new();
    for grade in 1..=3 {
        for regime in REGIMES {
            for moisture in [75, 85, 90, 100] {
                classes.extend([false, true].map(|passes| (grade, regime, moisture, passes)));
            }
        }
    }
    classes
}

fn class(sag: &Judged) -> Class {
    let Sagging { grade, regime, .. } = sag.beam;
    (grade, regime, sag.answer.moisture, sag.answer.passes)
}

/// What has been seen.
#[derive(Default)]
pub struct VerdictTally {
    judged: u64,
    classes: BTreeMap<Class, u64>,
    moistures: BTreeMap<u64, u64>,
    sorts: Vec<u64>,
    /// The greatest factor of the moment at which some fail would not fail yet with nothing rounded.
    tightest: Option<(Ratio, Sagging)>,
}

impl VerdictTally {
    /// Counts a verdict and holds it to the demand.
    pub fn count(&mut self, case: &SagCase, passes: bool, answer: &[u8]) {
        let sag = Judged::new(case, passes, answer);
        for thousandths in GROWN {
            if let Err(why) = sag.beam.keeps(passes, thousandths) {
                panic!("{why}, {:?}, {:?}", sag.beam, sag.answer);
            }
        }
        self.tighten(&sag);
        self.judged += 1;
        *self.classes.entry(class(&sag)).or_default() += 1;
        *self.moistures.entry(sag.beam.moisture).or_default() += 1;
        self.sorts.resize(SORTS.len(), 0);
        for ((_, is), count) in SORTS.iter().zip(&mut self.sorts) {
            *count += u64::from(is(&sag));
        }
    }

    fn tighten(&mut self, sag: &Judged) {
        if sag.answer.passes {
            return;
        }
        let reserve = sag.beam.reserve();
        if self.tightest.is_none_or(|(tightest, _)| reserve > tightest) {
            self.tightest = Some((reserve, sag.beam));
        }
    }

    pub fn print(&self) {
        println!(
            "{} of them judged; the demand held to {GROWN:?} thousandths on every one judged",
            self.judged
        );
        if let Some((factor, beam)) = self.tightest {
            let millionths = (factor * 1_000_000).ceil();
            println!("every fail fails unrounded at {millionths} millionths of its moment, and one of them not at a millionth less: {beam:?}");
        }
        println!("\ngrade  regime    w  verdict     sags");
        for (&(grade, regime, moisture, passes), sags) in &self.classes {
            let verdict = if passes { "pass" } else { "fail" };
            println!("{grade:>5}  {regime:>6}  {moisture:>3}  {verdict:>7}  {sags:>7}");
        }
        println!("\njudged: sags");
        for ((name, _), sags) in SORTS.iter().zip(&self.sorts) {
            println!("{name}: {sags}");
        }
    }

    /// Holds every class, moisture and sort to have occurred often enough.
    pub fn assert_every_sort(&self) {
        assert_occurred(
            "sags in class",
            &self.classes,
            &every_class(),
            LEAST_IN_CLASS,
        );
        let every_moisture: Vec<u64> = (0..=60).collect();
        assert_occurred(
            "sags at",
            &self.moistures,
            &every_moisture,
            LEAST_OF_MOISTURE,
        );
        for ((name, _), &sags) in SORTS.iter().zip(&self.sorts) {
            assert!(
                sags >= LEAST_OF_SORT,
                "only {sags} sags of the sort '{name}'"
            );
        }
    }
}
