//! The exact numbers: whole ones of many limbs, and fractions of them.
use lvl_second::exact::{Ratio, Wide};

/// 2^`exponent`.
fn power_of_two(exponent: u32) -> Wide {
    (0..exponent).fold(Wide::from(1), |power, _| power + power)
}

#[test]
fn wide_adds_and_multiplies_across_limbs() {
    let most = Wide::from(u64::MAX);
    assert_eq!(most + Wide::from(1), power_of_two(64));
    assert_eq!(power_of_two(200) * power_of_two(311), power_of_two(511));
    assert_eq!((most * most).to_u128(), Some(u128::from(u64::MAX).pow(2)));
    // (2^256 - 1)^2 = 2^512 - 2^257 + 1, the greatest square of four limbs.
    let four = power_of_two(255) + power_of_two(255).checked_sub(Wide::from(1)).unwrap();
    let rest = power_of_two(257).checked_sub(Wide::from(2)).unwrap();
    let below_all = power_of_two(511) + power_of_two(511).checked_sub(Wide::from(1)).unwrap();
    assert_eq!(four * four + rest, below_all);
    assert_eq!(Wide::from(0) * four, Wide::from(0));
}

#[test]
fn wide_agrees_with_128_bits() {
    let mut state = 1_u64;
    let mut draw = || {
        state = state
            .wrapping_mul(6_364_136_223_846_793_005)
            .wrapping_add(1_442_695_040_888_963_407);
        state >> (state % 61)
    };
    for _ in 0..10_000 {
        let [a, b, c, d] = [draw(), draw() >> 2, draw(), draw() >> 2];
        let wide = [a, b, c, d].map(Wide::from);
        let product = (u128::from(a) * u128::from(b), wide[0] * wide[1]);
        let other = (u128::from(c) * u128::from(d), wide[2] * wide[3]);
        assert_eq!(product.1.to_u128(), Some(product.0));
        assert_eq!((product.1 + other.1).to_u128(), Some(product.0 + other.0));
        assert_eq!(product.1.cmp(&other.1), product.0.cmp(&other.0));
        let difference = product.1.checked_sub(other.1).map(|wide| wide.to_u128());
        assert_eq!(difference, product.0.checked_sub(other.0).map(Some));
    }
}

#[test]
fn wide_never_goes_below_zero() {
    assert_eq!(Wide::from(1).checked_sub(Wide::from(2)), None);
    assert_eq!(
        power_of_two(300).checked_sub(power_of_two(300) + Wide::from(1)),
        None
    );
    let below = power_of_two(128).checked_sub(Wide::from(1)).unwrap();
    assert_eq!(below.to_u128(), Some(u128::MAX));
    assert_eq!(power_of_two(128).to_u128(), None);
    assert!(below < power_of_two(128));
}

#[test]
#[should_panic(expected = "a sum takes more than 512 bits")]
fn wide_sum_too_great() {
    let _ = power_of_two(511) + power_of_two(511);
}

#[test]
#[should_panic(expected = "a product takes more than 512 bits")]
fn wide_product_too_great() {
    let _ = power_of_two(256) * power_of_two(256);
}

#[test]
#[should_panic(expected = "a fraction over zero")]
fn ratio_over_zero() {
    let _ = Ratio::from(1) / 0;
}

#[test]
fn ratios_are_exact() {
    let third = Ratio::new(1, 3);
    assert_eq!(third + third + third, Ratio::from(1));
    assert_eq!(third * 6, Ratio::new(10, 5));
    assert_eq!(Ratio::from(1) / third, Ratio::from(3));
    assert!(third > Ratio::new(333_333_333_333, 1_000_000_000_000));
    assert!(third < Ratio::new(333_333_333_334, 1_000_000_000_000));
    assert_eq!(Ratio::new(1, 2).checked_sub(third), Some(Ratio::new(1, 6)));
    assert_eq!(third.checked_sub(Ratio::new(1, 2)), None);
    assert_eq!(
        [Ratio::new(6, 3), Ratio::new(7, 3), Ratio::new(0, 3)].map(Ratio::ceil),
        [2, 3, 0]
    );
}

/// To the least whole number whose square is no less, also of what is a third off a square.
#[test]
fn roots_are_rounded_up() {
    let root = 1_000_000_007;
    let square = Ratio::from(root) * root;
    let less = square.checked_sub(Ratio::new(1, 3)).unwrap();
    assert_eq!(
        [less, square, square + Ratio::new(1, 3)].map(Ratio::root_up),
        [root, root, root + 1].map(u128::from)
    );
    for (square, root) in [(0, 0), (1, 1), (3, 2), (4, 2), (5, 3)] {
        assert_eq!(Ratio::from(square).root_up(), root);
        assert_eq!(Ratio::new(square * 7, 7).root_up(), root);
    }
    assert_eq!(Ratio::new(9, 4).root_up(), 2);
    assert_eq!(Ratio::new(29, 7).root_up(), 3);
    let greatest = Ratio::from(u64::MAX) * u64::MAX;
    assert_eq!(greatest.root_up(), u128::from(u64::MAX));
}
