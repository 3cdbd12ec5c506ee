//! The answers on sag in columns beside the input, and what becomes of them when the sheet is read again.
use super::{answer, asking, beam, sheet};
use crate::common::Scratch;
use crate::floor::{example, example_with_sag, floor, stopped, BEAM, HEADER};
use lvl_sheet::windows_1251;

const OF_STRENGTH: &str = "verdict,check,utilisation in millionths,refusal,refused cell,\
    total load q in N/m,regime,moment M in N·mm,shear force Q in N";

const BESIDE: &str = "strength verdict,strength check,strength utilisation in millionths,\
    sag verdict,sag utilisation in millionths,sag refusal,why sag is refused,\
    modulus of elasticity in MPa,e in hundredths,w in hundredths,\
    design modulus E in MPa,limit moment Mf in N·mm,shear factor in millionths";

fn written(content: &str, options: &[&str]) -> String {
    floor(content, &[options, &["--csv"]].concat()).out
}

/// What `--csv` makes of a sheet, and that it makes the same of that.
fn read_again(content: &str, options: &[&str]) -> String {
    let options = [options, &["--csv"]].concat();
    let once = floor(content, &options);
    let again = floor(&once.out, &options);
    assert_eq!(once.out, again.out);
    assert_eq!(once.code, again.code, "{}", again.err);
    once.out
}

#[test]
fn they_stand_after_those_on_strength() {
    let example = example_with_sag();
    let out = read_again(&example, &[]);
    let mut lines = out.lines().zip(example.lines());
    let (header, own) = lines.next().unwrap();
    assert_eq!(header, format!("{own},{OF_STRENGTH},{BESIDE}"));
    for (line, beam) in lines {
        assert!(line.starts_with(&format!("{beam},")), "{line}");
    }
    read_again(&example, &["--by-position"]);
    let unheaded = read_again(&beam(1_800_000, 200), &[]);
    let names = "beam,permanent and long-term load,remaining load,span,grade,moisture,office factor,width b,height h,\
        unfactored moment Mn,limit n";
    assert!(
        unheaded.starts_with(&format!("{names},{OF_STRENGTH},{BESIDE}\n")),
        "{unheaded}"
    );
}

/// A sheet that was answered before there was sag gets the answers on it at its end, and the others in their places.
#[test]
fn they_are_added_to_the_answers_of_an_earlier_run() {
    let earlier = written(&example(), &[]);
    let asks = example_with_sag();
    let ends = asks.lines().map(|line| {
        let mut last: Vec<&str> = line.rsplit(',').take(2).collect();
        last.reverse();
        last.join(",")
    });
    let joined: String = earlier
        .lines()
        .zip(ends)
        .map(|(line, end)| format!("{line},{end}\n"))
        .collect();
    let out = read_again(&joined, &[]);
    let fresh = written(&asks, &[]);
    let [header, fresh_header] = [&out, &fresh].map(|out| out.lines().next().unwrap());
    let own = example().lines().next().unwrap().to_owned();
    assert_eq!(header, format!("{own},{OF_STRENGTH},Mn N·mm,n,{BESIDE}"));
    let headings: Vec<&str> = fresh_header.split(',').skip(9).collect();
    for (line, fresh_line) in out.lines().zip(fresh.lines()).skip(1) {
        // A reason in quotes has no comma.
        for heading in &headings {
            let expected = answer(&fresh, fresh_line, heading);
            assert_eq!(answer(&out, line, heading), expected, "{heading}: {line}");
        }
    }
}

/// Answers of an earlier run that nobody asks for any more do not stay.
#[test]
fn they_are_emptied_where_no_beam_asks_any_more() {
    let asked = written(&sheet(&[beam(1_800_000, 200), beam(3_600_000, "")]), &[]);
    let row = |place: usize| asked.lines().nth(place).unwrap();
    assert!(row(1).contains(",pass,975892,,,12000,") && row(2).contains(",refused,,10,limit n: "));
    let asks_no_more = asked
        .replace(",1800000,200,", ",,,")
        .replace(",3600000,,", ",,,");
    let out = read_again(&asks_no_more, &[]);
    let expected = format!("{BEAM},,,pass,7,892337,,,2000,В,4410000,4200,pass,7,892337,,,,,,,,,,");
    assert_eq!(out.lines().next(), asked.lines().next());
    assert_eq!(
        out.lines().skip(1).collect::<Vec<_>>(),
        [expected.as_str(), &expected]
    );
    let table = floor(&asks_no_more, &[]).out;
    assert!(!table.contains("Sag"), "{table}");
}

#[test]
fn they_keep_every_column_in_its_place() {
    let own = format!(
        "sag verdict,n,{},remark,Mn,{}",
        HEADER,
        answers_without("sag verdict")
    );
    let blanks = ",".repeat(20);
    let content = format!("{own}\nold,200,{BEAM},x,1800000,{blanks}\n");
    let out = read_again(&content, &["--skip", "remark"]);
    let answers = "pass,sag,975892,,,2000,В,4410000,4200,pass,7,892337,975892,,,12000,90,100,10800,1895862,1027864";
    let row = format!("pass,200,{BEAM},x,1800000,{answers}");
    assert_eq!(out, format!("{own}\n{row}\n"));
}

/// The headings of all answers but one.
fn answers_without(heading: &str) -> String {
    let all = format!("{OF_STRENGTH},{BESIDE}");
    let others = all.split(',').filter(|answer| *answer != heading);
    others.collect::<Vec<_>>().join(",")
}

#[test]
fn one_of_their_headings_alone_stops_the_sheet() {
    let problem = "the heading of an answer, without those of the others: rename the column";
    let all: Vec<&str> = BESIDE.split(',').collect();
    for heading in &all {
        let message = stopped(
            &format!("{HEADER},Mn,n,{heading}\n{},\n", beam(2, 200)),
            &[],
        );
        let told = format!("column 12, \"{heading}\": {problem}");
        assert!(message.contains(&told), "{message}");
    }
    // All of them, but without those on strength that every run writes.
    let blanks = ",".repeat(all.len());
    let message = stopped(
        &format!("{HEADER},Mn,n,{BESIDE}\n{}{blanks}\n", beam(2, 200)),
        &[],
    );
    assert!(
        message.contains(&format!("column 12, \"strength verdict\": {problem}")),
        "{message}"
    );
    let missing = answers_without("shear factor in millionths");
    let blanks = ",".repeat(missing.split(',').count());
    let message = stopped(
        &format!("{HEADER},Mn,n,{missing}\n{}{blanks}\n", beam(2, 200)),
        &[],
    );
    assert!(message.contains(problem), "{message}");
    assert!(!message.contains("\"verdict\""), "{message}");
}

/// An office's own columns of these names are passed over where it says so, in a sheet without answers on sag.
#[test]
fn columns_of_the_office_with_their_headings_are_passed_over() {
    let plain = floor(format!("{HEADER}\n{BEAM}\n"), &[]);
    let asking = sheet(&[beam(1_800_000, 200)]);
    for heading in BESIDE.split(',') {
        let skip = ["--skip", &heading.to_uppercase()];
        let content = format!("{HEADER},{heading}\n{BEAM},ours\n");
        let run = floor(&content, &skip);
        assert_eq!((run.code, &run.out), (plain.code, &plain.out), "{heading}");
        let own = format!("{BEAM},ours,pass,7,892337,,,2000,В,4410000,4200\n");
        let out = read_again(&content, &skip);
        assert!(out.ends_with(&own), "{out}");
        let with_sag = asking.replace(",n\n", &format!(",n,{heading}\n"));
        let with_sag = floor(with_sag.trim_end().to_owned() + ",ours\n", &skip);
        assert_eq!(with_sag.out, floor(&asking, &[]).out, "{heading}");
        let absent = stopped(&asking, &skip);
        assert!(absent.contains(": no column is headed so\n"), "{absent}");
    }
    let two = format!("{HEADER},sag verdict,strength check\n{BEAM},ours,too\n");
    let skip = ["--skip", "sag verdict", "--skip", "strength check"];
    assert_eq!(floor(&two, &skip).out, plain.out);
    let one_left = stopped(&two, &skip[..2]);
    let problem = "the heading of an answer, without those of the others: rename the column";
    assert!(one_left.contains(problem), "{one_left}");
    let cannot = "--skip \"sag verdict\": an answer cannot be passed over: rename the column";
    assert!(one_left.contains(cannot), "{one_left}");
}

/// Beside answers on sag of an earlier run none of them is passed over, and those on strength are written beside every beam.
#[test]
fn answers_are_not_passed_over() {
    let with_sag = written(&sheet(&[beam(1_800_000, 200)]), &[]);
    let own = format!("{HEADER},verdict\n{BEAM},ours\n");
    for (content, heading) in [
        (&with_sag, "sag verdict"),
        (&with_sag, "strength check"),
        (&with_sag, "verdict"),
        (&own, "verdict"),
    ] {
        let message = stopped(content, &["--skip", heading]);
        let cannot = format!("\"{heading}\": an answer cannot be passed over: rename the column");
        assert!(message.contains(&cannot), "{message}");
    }
}

/// A typed text in a reason is quoted where the sheet's separator asks for it.
#[test]
fn they_go_out_as_the_sheet_came_in() {
    let beams = [
        asking(BEAM, "by statics", 200),
        asking(BEAM, 1_800_000, 200),
    ]
    .join("\n");
    let sheet = format!("{HEADER},Mn,n\n{beams}\n").replace(',', ";");
    let sheet = sheet.replace("by statics", "1,8 кНм").replace("B1", "Б1");
    let out = read_again(&sheet, &[]);
    let reason =
        "\"unfactored moment Mn: \"\"1,8 кНм\"\" is not a number (wanted: 1 to 10000000000 N·mm)\"";
    assert!(
        out.contains(&format!(";refused;;10;{reason};;;;;;\n")),
        "{out}"
    );
    assert!(!windows_1251::encode(&out).contains(&b'?'));
    let bytes = |content: &[u8]| {
        let file = Scratch::new(content);
        let mut command = crate::common::command();
        command.args(["--floor", "--csv"]).arg(&file.0);
        command.output().unwrap().stdout
    };
    let encoded = bytes(&windows_1251::encode(&sheet));
    assert_eq!(encoded, windows_1251::encode(&out));
    assert_eq!(bytes(&encoded), encoded);
}
