//! The dowel joint over the ranges of the cells: the root of every product of factors, and the ends that figures reach.
use lvl_addin::answer::Verdict;
use lvl_addin::entry;
use lvl_second::cells::*;
use lvl_second::rows::judged::REGIMES;
use lvl_second::rows::worked::{row, with};
use lvl_second::{Paper, Rules};

/// t × w × o of every regime, moisture and office factor.
fn products() -> impl Iterator<Item = u64> {
    let factors = |regime, moisture| {
        move |office| Factors {
            duration: Paper::duration_factor(regime).expect("the regime is known"),
            moisture: Paper::moisture_factor(moisture),
            office,
        }
    };
    let of_regime = move |regime| {
        (0..=60).flat_map(move |moisture| (500..=1000).map(factors(regime, moisture)))
    };
    REGIMES
        .into_iter()
        .flat_map(of_regime)
        .map(|factors| Paper::factor_product(&factors))
}

#[test]
fn the_root_is_the_largest_whole_number_within() {
    for product in products() {
        let (root, square) = (Paper::factor_root(product), 100_000 * product);
        assert!(root * root <= square, "{root} of {product}");
        assert!(square < (root + 1) * (root + 1), "{root} of {product}");
    }
}

#[test]
fn the_ends_of_the_root() {
    let roots = || products().map(Paper::factor_root);
    assert_eq!(
        (roots().min(), roots().max()),
        (Some(445_813), Some(1_048_808))
    );
}

/// A tie with a joint, of this regime, moisture and office factor; b, a and d; kc, ka, kb and km.
fn tie(material: [u64; 3], sizes: [u64; 3], coefficients: [u64; 4]) -> Cells {
    let [regime, moisture, office] = material;
    let [width, side_thickness, diameter] = sizes;
    let [kc, ka, kb, km] = coefficients;
    row(&[
        (KIND, 1),
        (GRADE, 1),
        (REGIME, regime),
        (MOISTURE, moisture),
        (OFFICE_FACTOR, office),
        (WIDTH, width),
        (HEIGHT, 2500),
        (AXIAL, 100_000_000),
        (LENGTH_H, 100),
        (LENGTH_B, 100),
        (TABLE_16_ROW, 5),
        (SIDE_THICKNESS, side_thickness),
        (DIAMETER, diameter),
        (DOWELS_ACROSS, 1),
        (JOINT_LENGTH, 20_000),
        (KC, kc),
        (KA, ka),
        (KB, kb),
        (KE, 0),
        (KM, km),
    ])
}

fn capacity(cells: &Cells) -> u64 {
    let member = Paper::accept(cells).expect("the row is judged");
    Paper::dowel_capacity(&member, &member.joint.expect("it has a joint"))
}

/// What both implementations say of the row's verdict.
fn judged(cells: &Cells) -> Verdict {
    let verdict = Paper::check_row(cells).expect("the row is judged");
    let host_row = cells.map(|cell| cell.map(|number| number as f64));
    assert_eq!(entry::check(&host_row), Ok(verdict));
    verdict
}

/// The least of everything: a side piece of 10 mm is crushed, 6000 × 1,987,500 / 1,000,000, before the dowel bends at
/// 3600 × 445,813 / 100,000 = 16,049.
#[test]
fn the_weakest_dowel() {
    let weakest = tie([2, 60, 500], [20, 10, 6], [100; 4]);
    assert_eq!(capacity(&weakest), 11_925);
    let (passes, check, count) = (false, 4, 4_192_873);
    let utilisation = 0;
    assert_eq!(
        judged(&weakest),
        Verdict {
            passes,
            check,
            utilisation,
            count
        }
    );
    // With a side piece of 14 mm it bends first.
    assert_eq!(capacity(&with(weakest, SIDE_THICKNESS, 14)), 16_049);
}

/// The greatest of everything, in the regime whose factor is above one: the dowel bends, as its limit has it, at 5000 ×
/// 40² × 1,048,808 / 100,000.
#[test]
fn the_strongest_dowel() {
    let strongest = tie([8, 0, 1000], [300, 300, 40], [5000; 4]);
    assert_eq!(capacity(&strongest), 83_904_640);
    // 10^11 / 167,809,280 is 595.9….
    assert_eq!(judged(&strongest).count, 596);
}
