//! The demand on sags as it keeps right verdicts and refutes wrong ones.
#[path = "sag_demand/wrong_rules.rs"]
mod wrong_rules;

use lvl_second::exact::Ratio;
use lvl_second::sag_demand::Sagging;

/// Worked row A over 6 m with n 200: Mf is 14,580,000 N·mm and the shear factor 1.048, both without rounding.
fn row_a(moment: u64) -> Sagging {
    Sagging {
        grade: 1,
        regime: 3,
        moisture: 10,
        width: 75,
        height: 300,
        span: 6000,
        moment,
        limit: 200,
    }
}

/// K40, 20 by 60, in regime Б at 25 percent over 20 m with n 500: E is 6187.5, Mf 2138.4 N·mm and the shear factor
/// 1.0001728.
fn weak(moment: u64) -> Sagging {
    Sagging {
        grade: 2,
        regime: 2,
        moisture: 25,
        width: 20,
        height: 60,
        span: 20_000,
        moment,
        limit: 500,
    }
}

/// Holds the demand to keep a verdict at so many thousandths.
fn kept(beam: Sagging, passes: bool, thousandths: u64) {
    assert_eq!(beam.keeps(passes, thousandths), Ok(()), "{beam:?}");
}

/// Holds the demand to refute a verdict for this reason.
fn refuted(beam: Sagging, passes: bool, thousandths: u64, why: &str) {
    let message = beam
        .keeps(passes, thousandths)
        .expect_err("the verdict is wrong");
    assert!(message.contains(why), "{beam:?}: {message}");
}

/// Mf / 1.048 is 13,912,213.7…; at 1.005 it is 13,842,998.7…, and at 1.001 13,898,315.4….
#[test]
fn a_moment_at_its_limit() {
    kept(row_a(13_912_213), true, 1005);
    refuted(row_a(13_912_214), true, 1005, "a pass");
    kept(row_a(13_842_999), false, 1005);
    refuted(row_a(13_842_998), false, 1005, "at 1005 thousandths");
    kept(row_a(13_898_316), false, 1001);
    refuted(row_a(13_898_315), false, 1001, "at 1001 thousandths");
}

/// 2138 × 1.0001728 is 2138.36…, which 2138.4 bears; rounding fails it, and at 1.001 it fails without rounding.
#[test]
fn a_fail_by_rounding_alone() {
    kept(weak(2138), true, 1005);
    kept(weak(2138), false, 1005);
    kept(weak(2138), false, 1001);
    refuted(weak(2138), false, 1000, "at 1000 thousandths");
    refuted(weak(2139), true, 1005, "a pass");
    // 2138.4 / (2138 × 1.0001728) = 21,384,000,000 / 21,383,694,464….
    let reserve = weak(2138).reserve();
    assert!(reserve > Ratio::from(1));
    assert_eq!((reserve * 1_000_000_000).ceil(), 1_000_014_289);
}

/// One more in n or in the span, one less in a side, or a weaker material makes row A's moment too great; in a regime
/// without a factor of its own it may grow by more than 1.005.
#[test]
fn every_number_counts() {
    let just_right = row_a(13_912_213);
    for other in [
        Sagging {
            limit: 201,
            ..just_right
        },
        Sagging {
            span: 6001,
            ..just_right
        },
        Sagging {
            width: 74,
            ..just_right
        },
        Sagging {
            height: 299,
            ..just_right
        },
        Sagging {
            grade: 2,
            ..just_right
        },
        Sagging {
            regime: 2,
            ..just_right
        },
        Sagging {
            moisture: 13,
            ..just_right
        },
    ] {
        refuted(other, true, 1005, "a pass");
    }
    for regime in [1, 4, 5, 6, 7, 8, 10, 11] {
        refuted(
            Sagging {
                regime,
                ..just_right
            },
            false,
            1005,
            "a fail",
        );
    }
}
