//! The answers for floor beams in columns beside the input.
use super::{cells_of, example, floor, stopped, BEAM, HEADER};
use crate::common::{command, Scratch};
use lvl_addin::answer::Refusal;
use lvl_addin::entry;
use lvl_sheet::windows_1251;

const ANSWERS: &str = "verdict,check,utilisation in millionths,refusal,refused cell,\
    total load q in N/m,regime,moment M in N·mm,shear force Q in N";

/// What `--csv` makes of a sheet, and that it makes the same of that.
fn read_again(content: &str, options: &[&str]) -> String {
    let options = [options, &["--csv"]].concat();
    let once = floor(content, &options);
    let again = floor(&once.out, &options);
    assert_eq!(once.out, again.out);
    assert_eq!(once.code, again.code, "{}", again.err);
    once.out
}

/// The answer columns of a beam, by the add-in itself.
fn expected(beam: &str) -> String {
    let cells = cells_of(beam);
    match entry::check_floor_beam(&cells) {
        Ok(found) => {
            let word = if found.verdict.passes { "pass" } else { "fail" };
            let regime = if found.regime == 2 { "Б" } else { "В" };
            let (check, utilisation) = (found.verdict.check, found.verdict.utilisation);
            let total = cells[0].unwrap() + cells[1].unwrap();
            let (moment, shear) = (found.moment, found.shear);
            format!("{word},{check},{utilisation},,,{total},{regime},{moment},{shear}")
        }
        Err(Refusal { number, cell }) => format!("refused,,,{number},{cell},,,,"),
    }
}

#[test]
fn answers_are_those_of_the_addin() {
    let sheet = example();
    let out = read_again(&sheet, &[]);
    let mut written = out.lines().zip(sheet.lines());
    let (header, own) = written.next().unwrap();
    assert_eq!(header, format!("{own},{ANSWERS}"));
    assert_eq!(out.lines().count(), sheet.lines().count());
    for (written, beam) in written {
        assert_eq!(written, format!("{beam},{}", expected(beam)));
    }
    let run = floor(&sheet, &["--csv"]);
    let tally = "38 rows: 23 passed, 5 failed, 10 refused\n";
    assert_eq!((run.code, run.err.as_str()), (1, tally));
}

#[test]
fn answers_keep_every_column_in_its_place() {
    for content in [BEAM, &BEAM[3..], &format!("{HEADER}\n\n{BEAM}\n=1,x\n")] {
        read_again(content, &["--by-position"]);
        let out = read_again(content, &[]);
        assert!(
            out.contains(",pass,7,892337,,,2000,В,4410000,4200\n"),
            "{out}"
        );
    }
    let unheaded = read_again(BEAM, &[]);
    let names = "beam,permanent and long-term load,remaining load,span,grade,moisture,office factor,width b,height h";
    assert!(
        unheaded.starts_with(&format!("{names},{ANSWERS}\n")),
        "{unheaded}"
    );
    let formula = read_again(&format!("{HEADER}\n=1,{}\n", &BEAM[3..]), &[]);
    assert!(formula.contains("\n'=1,1600,"), "{formula}");
    let own = "regime,h,Refusal,b,remark,factor,moisture,grade,L,moment M in N·mm,verdict,check,\
        total load q in N/m,shear force Q in N,utilisation in millionths,refused cell,remaining,\
        permanent + long-term\n\
        А,160,old,45,x,1000,12,1,4200,,,,,,,,400,1600\n";
    let out = read_again(own, &["--skip", "remark"]);
    let row = "\nВ,160,,45,x,1000,12,1,4200,4410000,pass,7,2000,4200,892337,,400,1600\n";
    assert!(out.ends_with(row), "{out}");
}

#[test]
fn an_answers_heading_alone_stops_the_sheet() {
    let message = stopped(&format!("{HEADER},Regime\n{BEAM},2\n"), &["--csv"]);
    let problem = "column 10, \"Regime\": the heading of an answer, without those of the others: rename the column";
    assert!(message.contains(problem), "{message}");
}

/// The letters of both regimes are in Windows-1251, and so are the answers' headings.
#[test]
fn answers_go_out_as_the_sheet_came_in() {
    let sheet = format!("{HEADER}\nБ1,{}\nБ2,1601{}\n", &BEAM[3..], &BEAM[7..]);
    let plain = read_again(&sheet, &[]);
    for regime in [",В,4410000,4200\n", ",Б,4412205,4203\n"] {
        assert!(plain.contains(regime), "{plain}");
    }
    assert!(!windows_1251::encode(&plain).contains(&b'?'));
    let bytes = |content: &[u8]| {
        let file = Scratch::new(content);
        let mut command = command();
        command.args(["--floor", "--csv"]).arg(&file.0);
        command.output().unwrap().stdout
    };
    let encoded = bytes(&windows_1251::encode(&sheet));
    assert_eq!(encoded, windows_1251::encode(&plain));
    assert_eq!(bytes(&encoded), encoded);
}
