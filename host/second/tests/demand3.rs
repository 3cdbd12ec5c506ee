//! Demand 3 as it keeps right verdicts and refutes wrong ones, in tables of rows, verdicts and reasons.
#[path = "demand3/wrong_rules.rs"]
mod wrong_rules;

use lvl_addin::answer::Verdict;
use lvl_addin::entry;
use lvl_addin::row::CELLS;
use lvl_second::cells::*;
use lvl_second::demand3::keeps;
use lvl_second::exact::Ratio;
use lvl_second::rows::worked::{a, b, e, shortest_e, with};

/// A verdict on a row, and what demand 3 says of it.
struct Entry {
    name: String,
    cells: Cells,
    verdict: Verdict,
    /// The forces at which it is asked.
    thousandths: &'static [u64],
    /// Why the verdict is refuted; none where it is kept.
    why: Option<String>,
}

impl Entry {
    fn at(self, thousandths: &'static [u64]) -> Entry {
        Entry {
            thousandths,
            ..self
        }
    }

    /// What demand 3 says otherwise than the table.
    fn mistakes(&self) -> impl Iterator<Item = String> + '_ {
        self.thousandths.iter().filter_map(|&thousandths| {
            let answer = keeps(&self.cells, &self.verdict, thousandths);
            let right = match (&answer, &self.why) {
                (Ok(()), None) => true,
                (Err(message), Some(why)) => message.contains(why),
                _ => false,
            };
            let Entry {
                name, verdict, why, ..
            } = self;
            (!right)
                .then(|| format!("{name}, {verdict:?} at {thousandths}: {answer:?}, not {why:?}"))
        })
    }
}

/// A verdict that is kept at both factors.
fn kept(name: impl Into<String>, cells: Cells, verdict: Verdict) -> Entry {
    Entry {
        name: name.into(),
        cells,
        verdict,
        thousandths: &[1005, 1003],
        why: None,
    }
}

/// A verdict that is refuted even at the greater factor.
fn refuted(
    name: impl Into<String>,
    cells: Cells,
    verdict: Verdict,
    why: impl Into<String>,
) -> Entry {
    Entry {
        thousandths: &[1005],
        why: Some(why.into()),
        ..kept(name, cells, verdict)
    }
}

/// Holds demand 3 to a table, and names every entry that it does not keep to.
fn hold(table: impl IntoIterator<Item = Entry>) {
    let table: Vec<Entry> = table.into_iter().collect();
    assert!(!table.is_empty() && table.iter().all(|entry| !entry.thousandths.is_empty()));
    let mistakes: Vec<String> = table.iter().flat_map(Entry::mistakes).collect();
    assert!(mistakes.is_empty(), "{}", mistakes.join("\n"));
}

fn pass(check: u32, utilisation: u32, count: u32) -> Verdict {
    Verdict {
        passes: true,
        check,
        utilisation,
        count,
    }
}

fn fail(check: u32, utilisation: u32, count: u32) -> Verdict {
    Verdict {
        passes: false,
        ..pass(check, utilisation, count)
    }
}

/// What the add-in says of a row.
fn checked(cells: &Cells) -> Verdict {
    let host_row = cells.map(|cell| cell.map(|number| number as f64));
    entry::check(&host_row).expect("the row is judged")
}

/// A row whose first cells are these; zeros stand for blanks.
fn row<const GIVEN: usize>(given: [u64; GIVEN]) -> Cells {
    let mut cells = [None; CELLS];
    for (cell, number) in cells.iter_mut().zip(given) {
        *cell = (number != 0).then_some(number);
    }
    cells
}

fn without_joint(mut cells: Cells) -> Cells {
    cells[FIRST_OF_JOINT - 1..LAST_OF_JOINT].fill(None);
    cells
}

fn f() -> Cells {
    with(e(), JOINT_LENGTH, 671)
}

fn g() -> Cells {
    with(e(), DIAMETER, 16)
}

/// Compression with bending, grade 1, regime А, dry, 100 by 300.
fn combined() -> Cells {
    row([
        4, 1, 1, 10, 1000, 100, 300, 50_000, 40_000_000, 20_000, 3000, 2000, 2,
    ])
}

/// Tension with bending.
fn tie() -> Cells {
    with(with(combined(), KIND, 5), TABLE_16_ROW, 5)
}

#[test]
fn worked_rows_are_accepted() {
    let rows = [
        ("A", a(), pass(7, 690_668, 0)),
        ("B", b(), pass(10, 315_122, 0)),
        ("C", with(b(), LENGTH_B, 2020), pass(10, 319_120, 0)),
        ("D", with(b(), LENGTH_B, 2021), pass(10, 317_141, 0)),
        ("E", e(), pass(5, 342_176, 20)),
        ("F", f(), fail(4, 0, 20)),
        ("G", g(), fail(1, 0, 0)),
    ];
    for (name, cells, verdict) in &rows {
        assert_eq!(checked(cells), *verdict, "row {name}");
    }
    hold(rows.map(|(name, cells, verdict)| kept(name, cells, verdict)));
}

#[test]
#[rustfmt::skip]
fn a_fail_without_cause_is_refuted() {
    hold([
        refuted("A", a(), fail(7, 690_668, 0), "a fail on check 7, which holds"),
        refuted("A", a(), fail(8, 492_733, 0), "a fail on check 8, which holds"),
        refuted("B", b(), fail(2, 0, 0), "a fail on check 2, which holds"),
        refuted("B", b(), fail(9, 1_000_001, 0), "a fail on check 9, which holds"),
        refuted("E", e(), fail(1, 0, 20), "a fail on check 1, which holds"),
        refuted("E", e(), fail(4, 0, 20), "a fail on check 4, which holds"),
        refuted("E", e(), fail(6, 1_000_001, 20), "a fail on check 6, which holds"),
        refuted("combined", combined(), fail(11, 9_999_999, 0), "a fail on check 11, which holds"),
        refuted("tie", tie(), fail(11, 9_999_999, 0), "a fail on check 11, which holds"),
    ]);
}

#[test]
#[rustfmt::skip]
fn a_fail_on_a_check_that_the_row_lacks_is_refuted() {
    let lacks = |name, cells, verdict| refuted(name, cells, verdict, "which the row does not have");
    let bare = without_joint(e());
    hold([
        lacks("A", a(), fail(9, 1_000_001, 0)),
        lacks("B", b(), fail(7, 1_000_001, 0)),
        lacks("E", e(), fail(11, 1_000_001, 20)),
        lacks("E", e(), fail(0, 1_000_001, 20)),
        lacks("E", e(), fail(12, 1_000_001, 20)),
        lacks("tie", tie(), fail(9, 1_000_001, 0)),
        lacks("E without a joint", bare, fail(1, 0, 0)),
        lacks("E without a joint", bare, fail(4, 0, 0)),
        lacks("E without a joint", bare, fail(6, 0, 0)),
        lacks("E without a joint, in row 4", with(bare, TABLE_16_ROW, 4), fail(3, 0, 0)),
    ]);
}

#[test]
#[rustfmt::skip]
fn a_pass_that_is_none_is_refuted() {
    hold([
        refuted("F", f(), pass(5, 342_176, 20), "check 4 fails unrounded"),
        refuted("G", g(), pass(5, 342_176, 20), "check 1 is the first to fail"),
        refuted("A", with(a(), MOMENT, 28_957_501), pass(7, 1_000_000, 0), "check 7 fails unrounded"),
        refuted("A", with(a(), SHEAR, 40_591), pass(8, 1_000_000, 0), "check 8 fails unrounded"),
        refuted("B", with(b(), AXIAL, 158_670), pass(10, 1_000_000, 0), "check 10 fails unrounded"),
        refuted("combined", with(combined(), MOMENT, 55_000_000), pass(11, 1_000_000, 0), "check 11 fails unrounded"),
        refuted("tie", with(tie(), MOMENT, 60_000_000), pass(11, 1_000_000, 0), "check 11 fails unrounded"),
    ]);
}

#[test]
#[rustfmt::skip]
fn a_wrong_count_is_refuted() {
    let slender = with(b(), LENGTH_H, 7000);
    hold([
        refuted("E", e(), pass(5, 342_176, 19), "19 dowels, where 20 to 21 are due"),
        // 1.005 × N takes 21, and 1.003 × N takes 20.
        kept("E", e(), pass(5, 342_176, 21)).at(&[1005]),
        refuted("E", e(), pass(5, 342_176, 21), "21 dowels, where 20 to 20 are due").at(&[1003]),
        refuted("E", e(), pass(5, 342_176, 22), "22 dowels, where 20 to 21 are due"),
        refuted("E", e(), pass(5, 342_176, 0), "0 dowels"),
        refuted("F", f(), fail(4, 0, 0), "0 dowels"),
        refuted("A", a(), pass(7, 690_668, 1), "1 dowels without a joint"),
        refuted("B, slender", slender, fail(2, 0, 1), "1 dowels without a joint"),
    ]);
}

/// The force of E's joint that 21 dowels bear by the true root, 2 × 21 × 309,200 × 8.1240384… / 1000 being 105,502.01…,
/// and not by s: a demand that took the rounded root would ask for 22.
#[test]
#[rustfmt::skip]
fn dowels_are_counted_by_the_true_root() {
    let at = with(shortest_e(), AXIAL, 105_502);
    let longer = with(at, JOINT_LENGTH, 756);
    let used = 361_002;
    assert_eq!(checked(&at), fail(4, 0, 22));
    assert_eq!(checked(&longer), pass(5, used, 22));
    let dowel_by_s = Ratio::new(309_200 * 812_403, 100_000);
    assert_eq!((Ratio::from(105_502 * 1000) / (dowel_by_s * 2)).ceil(), 22);
    hold([
        kept("rule", longer, pass(5, used, 22)),
        kept("root", longer, pass(5, used, 21)),
        refuted("root", longer, pass(5, used, 20), "20 dowels, where 21 to 22 are due"),
        refuted("root", longer, pass(5, used, 23), "23 dowels, where 21 to 22 are due"),
        // One newton more takes another dowel.
        refuted("above", with(longer, AXIAL, 105_503), pass(5, used, 21), "21 dowels, where 22 to 22 are due"),
        // The shortest length has room for the 21: a fail is justified by a greater force alone.
        kept("shortest", at, pass(5, used, 21)),
        kept("shortest", at, fail(4, 0, 22)),
        refuted("shortest", at, fail(4, 0, 21), "a fail on check 4, which holds").at(&[1000]),
    ]);
}

/// Where a piece is crushed before the dowel bends, the whole product counts and no root: 66 of 100.
#[test]
#[rustfmt::skip]
fn crushing_takes_the_whole_product() {
    // 2 × 100 × 600,000 × 6,600,000 / 10^9 = 792,000 N, 2 × 100 × 480,000 × … = 633,600 N.
    let unbent = with(with(with(with(e(), KB, 5000), KM, 5000), KC, 500), JOINT_LENGTH, 20_000);
    let side = with(unbent, AXIAL, 633_600);
    let middle = with(with(unbent, KA, 5000), AXIAL, 792_000);
    for (name, cells) in [("side", side), ("middle", middle)] {
        let verdict = checked(&cells);
        assert_eq!((verdict.passes, verdict.check, verdict.count), (false, 5, 100), "{name}");
        let more = with(cells, AXIAL, cell(&cells, AXIAL).unwrap() + 1);
        hold([
            kept(name, cells, verdict),
            refuted(name, cells, Verdict { count: 99, ..verdict }, "99 dowels, where 100 to 101 are due"),
            refuted(name, cells, Verdict { count: 102, ..verdict }, "102 dowels, where 100 to 101 are due"),
            refuted(name, more, verdict, "100 dowels, where 101 to 101 are due"),
        ]);
    }
}

#[test]
#[rustfmt::skip]
fn layout_and_slenderness_are_named_in_order() {
    let both = with(with(b(), LENGTH_H, 7000), LENGTH_B, 3500);
    let all_three = with(with(g(), LENGTH_H, 20_000), LENGTH_B, 20_000);
    // Row 4 of Table 16 has no limit across b.
    let chord = with(with(e(), LENGTH_B, 20_000), TABLE_16_ROW, 4);
    let in_row_5 = with(chord, TABLE_16_ROW, 5);
    hold([
        kept("checks 2, 3", both, fail(2, 0, 0)),
        refuted("checks 2, 3", both, fail(3, 0, 0), "check 2 is the first to fail"),
        refuted("checks 2, 3", both, pass(9, 500_000, 0), "check 2 is the first to fail"),
        refuted("checks 2, 3", both, fail(10, 1_500_000, 0), "check 2 is the first to fail"),
        kept("checks 1, 2, 3", all_three, fail(1, 0, 0)),
        refuted("checks 1, 2, 3", all_three, fail(2, 0, 0), "check 1 is the first to fail"),
        kept("chord", chord, pass(5, 342_176, 20)),
        refuted("chord in row 5", in_row_5, pass(5, 342_176, 20), "check 3 is the first to fail"),
    ]);
}

/// L / 300 mm × √12 up to the limit of each row of Table 16: its code, a kind that has it, the greatest length.
#[test]
fn slenderness_at_each_limit() {
    let limits = [
        (1, 3, 10_392),
        (2, 3, 12_990),
        (3, 3, 17_320),
        (4, 1, 12_990),
        (5, 1, 17_320),
    ];
    hold(limits.into_iter().flat_map(|(code, kind, most)| {
        let name = format!("row {code}");
        let strut = |length| row([kind, 1, 1, 10, 1000, 300, 300, 1, 0, 0, length, 100, code]);
        let holds = "a fail on check 2, which holds";
        [
            kept(&name, strut(most), pass(5, 1, 0)),
            refuted(&name, strut(most), fail(2, 0, 0), holds),
            kept(&name, strut(most + 1), fail(2, 0, 0)),
        ]
    }));
}

/// At p = 1 unrounded, check 11 of kind 4 fails however small the moment is.
#[test]
#[rustfmt::skip]
fn a_strut_at_its_critical_force() {
    // NR 960,000 N and φ' 0.4, so that p is exactly one at 384,000 N; check 9 holds at φ = 0.4 all the same.
    let strut = |force| row([4, 1, 1, 10, 1000, 100, 300, force, 1, 1, 7500, 100, 2]);
    let at = strut(384_000);
    hold([
        kept("at it", at, fail(11, 9_999_999, 0)),
        refuted("at it", at, pass(9, 1_000_000, 0), "check 11 fails unrounded"),
        // Check 9 holds by a hair: a fail on it is justified by greater forces and by nothing else.
        kept("at it", at, fail(9, 1_000_001, 0)),
        refuted("at it", at, fail(9, 1_000_001, 0), "a fail on check 9, which holds").at(&[1000]),
        kept("below it", strut(383_000), pass(9, 997_396, 0)),
    ]);
}

/// Rows at the greatest force that a check bears, by hand: the row, the force's cell, the check.
fn at_their_limits() -> [(Cells, usize, u32); 11] {
    let joint = [12, 3, 20_000, 500, 800, 1800, 20, 2500];
    let chord = |force, side| {
        let [d, r, length, kc, ka, kb, ke, km] = joint;
        row([
            1, 1, 1, 10, 1000, 100, 200, force, 0, 0, 3000, 3000, 5, side, d, r, length, kc, ka,
            kb, ke, km,
        ])
    };
    let beam = |moment, shear| row([2, 1, 1, 10, 1000, 100, 300, 0, moment, shear]);
    let column = |force, across_h, across_b| {
        row([
            3, 1, 1, 10, 1000, 100, 300, force, 0, 0, across_h, across_b, 3,
        ])
    };
    let longer = |length, force| with(with(b(), LENGTH_B, length), AXIAL, force);
    [
        (without_joint(chord(620_000, 1)), AXIAL, 5),
        (chord(508_400, 60), AXIAL, 5),
        (chord(406_720, 40), AXIAL, 6),
        (beam(58_500_000, 1), MOMENT, 7),
        (beam(1, 82_000), SHEAR, 8),
        // φ 0.904 and 0.4, NR 960,000 N.
        (column(867_840, 3000, 100), AXIAL, 9),
        (column(384_000, 7500, 100), AXIAL, 9),
        (column(867_840, 100, 1000), AXIAL, 10),
        // Rows C and D: NR 257,580 N, φ 0.6082816 and 0.6120788….
        (longer(2020, 156_681), AXIAL, 10),
        (longer(2021, 157_659), AXIAL, 10),
        // N / NR is 0.1 and p is 0.25, so that M / 0.75 may be 0.9 of 58.5 kN·m.
        (
            row([
                4, 1, 1, 10, 1000, 100, 300, 96_000, 39_487_500, 1, 7500, 100, 3,
            ]),
            MOMENT,
            11,
        ),
    ]
}

/// The row with this much of a force, and the dowels that it then has.
fn raised(cells: &Cells, number: usize, force: u64) -> (Cells, u32) {
    let raised = with(*cells, number, force);
    (raised, checked(&raised).count)
}

#[test]
fn each_check_at_its_limit() {
    hold(at_their_limits().iter().flat_map(|(cells, number, check)| {
        let most = cell(cells, *number).unwrap();
        let name = format!("check {check} at {most}");
        let (at, count) = raised(cells, *number, most);
        let (above, count_above) = raised(cells, *number, most + 1);
        let why = format!("a pass, but check {check} fails");
        [
            kept(&name, at, pass(*check, 1_000_000, count)),
            kept(&name, above, fail(*check, 1_000_001, count_above)),
            refuted(&name, above, pass(*check, 1_000_000, count_above), why),
        ]
    }));
}

/// Below the limit a fail is justified exactly as far as the greater force reaches past it.
#[test]
fn each_check_at_its_limit_under_greater_forces() {
    let limits = at_their_limits();
    let by_one_force = limits.iter().filter(|(_, _, check)| *check != 11);
    hold(by_one_force.flat_map(|(cells, number, check)| {
        // The parts of a newton that the limits of rows C and D leave over make no difference here.
        let still_held = cell(cells, *number).unwrap() * 1000 / 1005;
        let name = format!("check {check} at {still_held}");
        let (below, count) = raised(cells, *number, still_held);
        let (above, count_above) = raised(cells, *number, still_held + 1);
        let why = format!("a fail on check {check}, which holds");
        [
            refuted(&name, below, fail(*check, 1_000_001, count), why),
            kept(&name, above, fail(*check, 1_000_001, count_above)).at(&[1005]),
        ]
    }));
}

/// Kind 5: half of NR in tension leaves half of MR.
#[test]
#[rustfmt::skip]
fn tension_with_bending_at_its_limit() {
    let tie = |axial, moment| row([5, 1, 1, 10, 1000, 100, 300, axial, moment, 1, 3000, 3000, 5]);
    hold([
        kept("half", tie(465_000, 29_250_000), pass(11, 1_000_000, 0)),
        refuted("above half", tie(465_000, 29_250_001), pass(11, 1_000_000, 0), "check 11 fails unrounded"),
        // Both forces grow: 1005 / 1000 of both is at most one where each is at most 1000 / 1005 of its half.
        refuted("less", tie(462_686, 29_104_477), fail(11, 1_000_001, 0), "a fail on check 11, which holds"),
        kept("not less", tie(462_687, 29_104_477), fail(11, 1_000_001, 0)).at(&[1005]),
    ]);
}

/// Three thousandths of slack are needed: with two, the rules themselves would break the demand.
#[test]
fn a_row_that_needs_three_thousandths() {
    let slender = row([4, 3, 2, 60, 500, 20, 60, 475, 963, 1, 3464, 100, 3]);
    let verdict = fail(11, 1_000_669, 0);
    assert_eq!(checked(&slender), verdict);
    let holds = "a fail on check 11, which holds";
    hold([
        kept("slender", slender, verdict).at(&[1003]),
        refuted("slender", slender, verdict, holds).at(&[1002]),
    ]);
}
