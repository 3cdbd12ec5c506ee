//! Reading numbers.
use crate::common::{table_of, ROW_A};
use lvl_sheet::number::{read, DecimalMark, Typed};

#[test]
fn numbers_as_people_type_them() {
    let both = DecimalMark::PointOrComma;
    for (text, number) in [
        ("75", 75.0),
        (" 75 ", 75.0),
        ("+75", 75.0),
        ("-75", -75.0),
        ("75.0", 75.0),
        ("75,00", 75.0),
        ("75.", 75.0),
        (",5", 0.5),
        ("0,50", 0.5),
        ("1234,00", 1234.0),
        ("1e3", 1000.0),
        ("2,5E+05", 250_000.0),
        ("1e-3", 0.001),
        ("1e400", f64::INFINITY),
        ("-1e400", f64::NEG_INFINITY),
        ("1e99999999999999999999", f64::INFINITY),
        ("100 000", 100_000.0),
        ("100\u{a0}000\u{202f}000", 100_000_000.0),
    ] {
        assert_eq!(read(text, both), Typed::Number(number), "{text}");
    }
    for text in ["", " ", "\u{a0}"] {
        assert_eq!(read(text, both), Typed::Blank);
    }
    for text in [
        "20,5", "20,000", "x", "-", ".", "e5", "1e", "1e+", "1 2", "10 00", " 1  000", "1000 000",
        "--5", "1.2.3", "0x10", "nan", "٣", "75\0",
    ] {
        assert_eq!(read(text, DecimalMark::Point), Typed::Text, "{text}");
    }
}

#[test]
fn a_mark_before_three_digits_is_unclear_in_every_file() {
    let both = DecimalMark::PointOrComma;
    for text in [
        "20,000", "20.000", "-1.250", "+100.000", "0,500", "1234,000",
    ] {
        assert_eq!(read(text, both), Typed::Unclear, "{text}");
    }
    for text in [
        "20.000",
        "-1.250",
        "1.000",
        "999.999",
        "0.500",
        ".500",
        "020.000",
        "1000.000",
        "1 000.000",
    ] {
        assert_eq!(read(text, DecimalMark::Point), Typed::Unclear, "{text}");
    }
    for (text, number) in [
        ("20.00", 20.0),
        ("20.0000", 20.0),
        ("20.000e3", 20_000.0),
        ("1.000E+00", 1.0),
    ] {
        assert_eq!(
            read(text, DecimalMark::Point),
            Typed::Number(number),
            "{text}"
        );
    }
    let run = table_of(&[&ROW_A.replace(",20000000,20000", ",20000000,20.000")]);
    let reason = "cell 10 shear force Q: \"20.000\" can be read in two ways: leave the mark out";
    assert!(run.line("A ").ends_with(reason), "{}", run.out);
}

#[test]
fn whole_numbers_are_told_by_their_digits() {
    for (text, whole) in [
        ("75.000000000000000000000", 75),
        ("7500e-2", 75),
        ("0.75e2", 75),
        ("7.50E+1", 75),
        ("750000000000000000000000000000e-28", 75),
        ("0.000000000000000000000000000075e30", 75),
        ("0e-99999999999", 0),
        ("0.0000", 0),
        ("-0", 0),
        ("17179869183.000000000000000", 17_179_869_183),
    ] {
        assert_eq!(
            read(text, DecimalMark::Point).whole(),
            Some(whole),
            "{text}"
        );
    }
    for text in [
        "74.99999999999999999",
        "75.00000000000000000001",
        "7500000000000000000000001e-23",
        "1e-400",
        "1e-99999999999",
        "1e-99999999999999999999999",
        "0.0000000000000000000000001",
        "17179869182.99999999999",
        "17179869183.00000000001",
        "75e-1",
    ] {
        assert_eq!(read(text, DecimalMark::Point).whole(), None, "{text}");
        let run = table_of(&[&ROW_A.replace(",75,", &format!(",{text},"))]);
        let line = run.line("A ");
        assert!(line.contains("  refused  "), "{line}");
        assert!(line.contains("cell 6 width b: "), "{line}");
        assert!(line.ends_with(" is not a whole number"), "{line}");
    }
    let below_zero = table_of(&[&ROW_A.replace(",75,", ",-1e-400,")]);
    assert!(below_zero.line("A ").ends_with("-1e-400 is below zero"));
}
