//! What names the columns that ask for sag, in English and Russian, and in any order.
use super::{beam, sheet, table};
use crate::floor::{floor, stopped, BEAM, HEADER};
use lvl_sheet::floor_beams;
use lvl_sheet::headings::{read_in, Heading, Meaning};

const MOMENT: usize = 9;
const LIMIT: usize = 10;

#[rustfmt::skip]
const MOMENTS: [&str; 17] = [
    "Mn", "Mn, N·mm", "Mn [N mm]", "M_n", "Unfactored moment", "unfactored moment Mn, N·mm", "moment Mn",
    "bending moment Mn (N·mm)", "characteristic moment", "Мn, Н·мм", "Момент Mn, Н·мм", "Нормативный момент",
    "Нормативный изгибающий момент Mn, Н·мм", "Момент от нормативных нагрузок, Н·мм", "Мн", "Мн, Н·мм",
    "нормативный момент Мн (Н·мм)",
];

#[rustfmt::skip]
const LIMITS: [&str; 15] = [
    "n", "span/n", "Span / n", "L/n", "l/n", "limit n", "sag limit n", "deflection limit n", "limit span/n",
    "n, –", "предел прогиба n", "Предел прогиба l/n", "Предельный прогиб n", "пролёт/n", "Пролет / n",
];

/// A moment of design loads, a limit in mm or of none, and the forces of members.
#[rustfmt::skip]
const UNKNOWN: [&str; 26] = [
    "M", "moment", "bending moment", "design moment", "момент", "изгибающий момент", "расчётный момент",
    "N", "N, kN", "N limit", "M, N", "M (N)", "M N", "m, N", "М, Н", "moment M, N", "Момент М (Н)", "moment M, n·m",
    "limit", "sag limit", "sag", "f", "предел", "предельный прогиб", "прогиб", "200",
];

fn read(text: &str) -> Meaning {
    read_in(floor_beams::schema(), text)
}

#[test]
fn the_terms_in_english_and_russian() {
    for (place, names) in [(MOMENT, &MOMENTS[..]), (LIMIT, &LIMITS)] {
        for name in names {
            assert_eq!(read(name), Meaning::Known(Heading::Cell(place)), "{name}");
        }
    }
    // Capital letters all over are no N of forces.
    for name in ["MN", "UNFACTORED MOMENT", "НОРМАТИВНЫЙ МОМЕНТ, Н·ММ"] {
        assert_eq!(read(name), Meaning::Known(Heading::Cell(MOMENT)), "{name}");
    }
    for name in ["LIMIT N", "SPAN/N", "L/N", "ПРЕДЕЛ ПРОГИБА N"] {
        assert_eq!(read(name), Meaning::Known(Heading::Cell(LIMIT)), "{name}");
    }
}

#[test]
fn what_is_not_known() {
    for text in UNKNOWN {
        assert_eq!(read(text), Meaning::Unknown, "{text}");
    }
    let message = stopped(&format!("{HEADER},Mn,M\n{},\n", beam(1_800_000, 200)), &[]);
    let problem = "column 11, \"M\": not a known heading\n";
    assert!(message.contains(problem), "{message}");
    assert!(
        message.contains("\n       –  Mn, unfactored moment, "),
        "{message}"
    );
    assert!(message.contains("\n       –  n, span/n, "), "{message}");
}

/// Spreadsheets make a capital letter of it, so a message says what to do.
#[test]
fn a_capital_n_is_said_to_be_none() {
    let message = |heading: &str| {
        let content = format!("{HEADER},Mn,\"{heading}\"\n{},\n", beam(1_800_000, 200));
        stopped(&content, &[])
    };
    let advice = "n of the limit is typed small, or as \"L/n\" or \"span/n\"";
    for heading in ["N", "N, –", "N (-)"] {
        let problem = format!(
            "column 11, \"{}\": not a known heading: {advice}\n",
            heading
        );
        assert!(message(heading).contains(&problem), "{}", message(heading));
    }
    for heading in ["N, kN", "N, шт", "N limit", "M"] {
        assert!(!message(heading).contains(advice), "{heading}");
    }
    // A member's N is a force, and no sheet of members has a limit.
    let members = crate::common::table("member;kind;N, kN\nA;2;20\n");
    assert!(!members.err.contains(advice), "{}", members.err);
}

/// An h in Latin letters is the height, as in Lh; in Cyrillic ones it is the n that it looks like as a capital.
#[test]
fn across_h_is_no_n() {
    for text in [
        "Mh",
        "M_h",
        "M h",
        "mh",
        "Mh, N·mm",
        "MH",
        "Мh",
        "момент Mh",
        "M h (N·mm)",
    ] {
        assert_eq!(read(text), Meaning::Unknown, "{text}");
    }
    for text in ["Мн", "Mн", "М н", "М_н", "МН", "момент Мн", "Мн, Н·мм"] {
        assert_eq!(read(text), Meaning::Known(Heading::Cell(MOMENT)), "{text}");
    }
}

/// Behind a name of the moment a capital N is a unit, and one that no moment has.
#[test]
fn newtons_are_no_part_of_a_name() {
    for text in [
        "unfactored moment, N",
        "unfactored moment M, N",
        "unfactored moment (MN)",
        "нормативный момент, Н",
        "нормативный момент, МН",
        "Mn, MN",
    ] {
        assert_ne!(read(text), Meaning::Known(Heading::Cell(MOMENT)), "{text}");
    }
    for text in ["unfactored moment, N", "unfactored moment (MN)", "Mn, N"] {
        assert_eq!(read(text), Meaning::OtherUnit(MOMENT), "{text}");
    }
}

#[test]
fn headings_decide_in_any_order() {
    let plain = table(&[beam(1_800_000, 200)]);
    assert!(
        plain.line("B1 ").contains("  1.80  200  pass    97.6  "),
        "{}",
        plain.out
    );
    assert_eq!(plain.err, "");
    for moment in MOMENTS {
        for limit in ["n", "L/n", "предел прогиба n"] {
            let moment = moment.replace(',', "");
            let content = format!("{limit},{HEADER},{moment}\n200,{BEAM},1800000\n");
            let run = floor(content, &[]);
            assert_eq!(
                (run.out.as_str(), run.err.as_str()),
                (plain.out.as_str(), ""),
                "{moment}"
            );
        }
    }
    let turned = |line: &str| line.rsplit(',').collect::<Vec<_>>().join(",");
    let lines = sheet(&[beam(1_800_000, 200)]);
    let lines: Vec<String> = lines.lines().map(turned).collect();
    assert_eq!(floor(lines.join("\n") + "\n", &[]).out, plain.out);
    let russian = "Предел прогиба n;Балка;Пролёт, мм;h, мм;Кратковременная нагрузка, Н/м;Влажность, %;b, мм;\
        Нормативный момент Mn, Н·мм;Постоянная и длительная нагрузка, Н/м;Коэффициент, ‰;Класс прочности\n\
        200,0;B1;4 200;160;400;12;45;1,8E6;1600;1 000;1\n";
    assert_eq!(floor(russian, &[]).out, plain.out);
}

#[test]
fn one_of_both_columns_may_be_missing() {
    let lone = |heading: &str, value: &str| {
        let run = floor(format!("{HEADER},{heading}\n{BEAM},{value}\n"), &[]);
        run.line("B1 ").to_owned()
    };
    let line = lone("Mn", "1800000");
    assert!(
        line.ends_with("  refusal 10, limit n: blank (wanted: 100 to 500)"),
        "{line}"
    );
    let line = lone("n", "200");
    let reason = "  refusal 10, unfactored moment Mn: blank (wanted: 1 to 10000000000 N·mm)";
    assert!(line.ends_with(reason), "{line}");
    let twice = stopped(
        &format!("{HEADER},Mn,n,L/n\n{},200\n", beam(1_800_000, 200)),
        &[],
    );
    let problem = "column 12, \"L/n\": limit n is headed twice, by column 11, \"n\", too";
    assert!(twice.contains(problem), "{twice}");
}

/// Where a sheet has columns of these names that are its own, they are passed over as before.
#[test]
fn columns_of_the_office_are_passed_over() {
    let plain = floor(format!("{HEADER}\n{BEAM}\n"), &[]).out;
    let asking = sheet(&[beam(1_800_000, 200)]);
    assert_eq!(floor(&asking, &["--skip", "Mn", "--skip", "n"]).out, plain);
    let run = floor(&asking, &["--skip", "Mn"]);
    assert!(
        run.out.contains("unfactored moment Mn: blank"),
        "{}",
        run.out
    );
}
