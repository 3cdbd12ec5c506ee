//! `--help` explains sag: what it is asked with, what is made of it, what is shown.
use crate::common::run;

#[test]
fn help_explains_sag() {
    let out = run(&["--help"]).out;
    let (_, section) = out.split_once("\nFloor beams, with --floor: ").unwrap();
    let section = section.split_whitespace().collect::<Vec<_>>().join(" ");
    for part in [
        "strength alone, without lateral stability, and without sag unless Mn or n is filled",
        "Sag is checked beside strength where Mn or n is filled: leave both blank where no sag is wanted.",
        "Mn is the greatest moment of the beam's unfactored loads, the same loads as typed, with their safety factors at 1.",
        "a note says where it is above M or below a tenth of it",
        "A beam that asks and is refused itself has \"not judged\" there.",
        "E = modulus × e × w / 10000 and Mf = 4 × E × b × h³ / (5 × L × n), both rounded down",
        "the shear factor is 1000000 + 19200000 × h² / L², its second part rounded up",
        "Mn × shear factor / Mf, rounded up",
        "is refusal 10, of the sag alone",
        "A beam fails if either fails.",
        "Where sag is refused, a beam that fails in strength fails, and any other counts as refused.",
        "Where the order decides, Mn and n are two columns after height h; a lone number there is Mn, ",
        "– unfactored moment Mn N·mm 1 to 10000000000 ",
        "– limit n 100 to 500 ",
    ] {
        assert!(section.contains(part), "{part}");
    }
}
