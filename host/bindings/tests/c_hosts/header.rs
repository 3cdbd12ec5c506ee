//! Hosts in C99 and in C++11, compiled against the header and linked with the archive, get the answers that it states.
use crate::building::{compile, header, printed, scratch, source, succeed, C99, CPP11};
use lvl_addin::entry::check_sag;
use lvl_addin::floor_beam::{BEAM_ANSWER_BYTES, BEAM_BYTES, BEAM_CELLS};
use lvl_addin::row::{ANSWER_BYTES, CELLS, PACKED_BYTES};
use lvl_addin::sag::{SAG_ANSWER_BYTES, SAG_BYTES, SAG_CELLS};
use lvl_addin::strengths::{STRENGTHS_BYTES, STRENGTH_DIVISOR};

/// What the test hosts print, with the sizes of the bindings: the header's are no others.
fn expected() -> String {
    let blank = (CELLS + 7) / 8;
    let after_blank = PACKED_BYTES - blank;
    format!(
        "\
row A: 0, utilisation 690668, count 0, check 7
moment of 30 kN m: 1, utilisation 1036002, count 0, check 7
row too short: 1000
no row: 1000
answer too short: 5000
no answer: 5000
moisture 12.5: 1004
first byte of cell 3: 1003
answer untouched: {ANSWER_BYTES} of {ANSWER_BYTES}
strengths: parts of 1/{STRENGTH_DIVISOR}
row A: 0, bending 25740 + 0.0000000, compression 21120 + 0.0000000, tension 20460 + 0.0000000, shear 2706 + 0.0000000
something dropped: 0, bending 14871 + 0.9060000, compression 13122 + 0.2700000, tension 11810 + 0.0430000, shear 1705 + 0.8951000
a row that fails: 0, bending 14871 + 0.9060000, compression 13122 + 0.2700000, tension 11810 + 0.0430000, shear 1705 + 0.8951000
row too short: 1000
no row: 1000
answer too short: 5000
answer of a check: 5000
no answer: 5000
moment too great, answer too short: 4009
regime 9: 3003
no shear force: 2010
0.5 in cell 22: 1022
answer untouched: {STRENGTHS_BYTES} of {STRENGTHS_BYTES}
blank row, too little space: 5000
blank row, no space: 5000
nothing to pack: 1000
buffer untouched: {PACKED_BYTES} of {PACKED_BYTES}
blank row: {blank}
bytes: 0 0 0, then untouched: {after_blank}
full row: {PACKED_BYTES}
floor beam: {BEAM_CELLS} cells, {BEAM_BYTES} bytes
greatest loads and span: 1, utilisation 9999999, count 0, check 7, regime 3, M 5000000000, Q 1000000
beam that fails: 1, utilisation 1038489, count 0, check 8, regime 2, M 2722729, Q 9039
beam that passes: 0, utilisation 457810, count 0, check 7, regime 3, M 4438042, Q 3885
beam too short: 1000
no beam: 1000
answer too short: 5000
no answer: 5000
width 301: 4006
width 301, answer too short: 4006
grade 4: 3002
no grade: 2002
moisture 12.5: 1004
load 12.5: 8000
first byte of a load: 8000
no load: 8000
loads of 99: 8000
too short, loads of 99: 1000
answer untouched: {BEAM_ANSWER_BYTES} of {BEAM_ANSWER_BYTES}
sag: {SAG_CELLS} cells, {SAG_BYTES} bytes, refusals 9 and 10
row A: 1, utilisation 1078190, modulus 12000, e 90, w 100, E 10800, Mf 14580000, shear factor 1048000
bytes as worked: {SAG_ANSWER_BYTES} of {SAG_ANSWER_BYTES}
the least moment that fails: 1, utilisation 1000001, modulus 12000, e 90, w 100, E 10800, Mf 14580000, shear factor 1048000
the greatest that passes: 0, utilisation 1000000, modulus 12000, e 90, w 100, E 10800, Mf 14580000, shear factor 1048000
a row that fails, office factor 500: 0, utilisation 1000000, modulus 12000, e 90, w 100, E 10800, Mf 14580000, shear factor 1048000
least beam: 0, utilisation 515, modulus 10000, e 75, w 75, E 5625, Mf 1944, shear factor 1000173
bytes as worked: {SAG_ANSWER_BYTES} of {SAG_ANSWER_BYTES}
least beam, greatest moment: 1, utilisation 9999999, modulus 10000, e 75, w 75, E 5625, Mf 1944, shear factor 1000173
greatest beam and moment: 1, utilisation 5344445, modulus 12000, e 100, w 100, E 12000, Mf 900000000000, shear factor 481000000
answer too short: 5000
answer of a check: 5000
no answer: 5000
sag too short: 10000
sag too long: 10000
no sag: 10000
n 501: 10000
n 501, no answer: 10000
moment 0: 10000
span 499: 10000
span 6000.5: 10000
no span: 10000
first byte of the span: 10000
kind 3: 9001
kind 3, no sag, no answer: 9001
height 59: 4007
regime 9: 3003
no axial force: 2008
kind 6: 3001
0.5 in cell 22: 1022
row too short: 1000
no row: 1000
nothing lent: 1000
answer untouched: {SAG_ANSWER_BYTES} of {SAG_ANSWER_BYTES}
"
    )
}

#[test]
fn a_c99_host() {
    assert_eq!(printed(&C99, "c99-host", &source("host.c")), expected());
}

#[test]
fn a_cpp11_host() {
    assert_eq!(
        printed(&CPP11, "cpp11-host", &source("host.cpp")),
        expected()
    );
}

#[test]
fn the_header_stands_alone() {
    for language in [C99, CPP11] {
        let mut command = compile(&language);
        succeed(
            command
                .args(["-fsyntax-only", "-x", language.name])
                .arg(source("alone.c")),
        );
    }
}

/// The example in the header's comment compiles as it stands and prints what the comment says.
#[test]
fn the_example_of_the_header() {
    let header = header();
    let example = header
        .lines()
        .skip_while(|line| !line.contains("#include <stdio.h>"))
        .take_while(|line| !line.contains("It prints: "));
    let code: String = example
        .map(|line| line.trim_start_matches(" *").to_owned() + "\n")
        .collect();
    let (_, promised) = header
        .lines()
        .find_map(|line| line.split_once("It prints: "))
        .unwrap();
    let file = scratch("example.c");
    std::fs::write(&file, code).unwrap();
    assert_eq!(printed(&C99, "example", &file).trim_end(), promised);
}

/// The figures of the example's sag are those that the entry answers.
#[test]
fn the_sag_of_the_example() {
    let mut row = [None; CELLS];
    row[..7].copy_from_slice(&[2, 1, 3, 10, 1000, 75, 300].map(|number| Some(f64::from(number))));
    row[8..10].copy_from_slice(&[20_000_000, 20_000].map(|number| Some(f64::from(number))));
    let sag = [6000, 15_000_000, 200].map(|number| Some(f64::from(number)));
    let verdict = check_sag(&row, &sag).unwrap();
    assert!(!verdict.passes);
    let said = format!(
        "fails: E {}, Mf {}, shear factor {}, utilisation {}.",
        verdict.design_modulus, verdict.limit_moment, verdict.shear_factor, verdict.utilisation
    );
    assert!(prose(&header()).contains(&said), "{said}");
}

/// The words of a comment, without its stars and its line ends.
fn prose(comment: &str) -> String {
    let words = comment.split_whitespace().filter(|&word| word != "*");
    words.collect::<Vec<_>>().join(" ")
}
