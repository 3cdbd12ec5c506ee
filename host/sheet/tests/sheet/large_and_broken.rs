//! Giant lines, many rows and random bytes.
use crate::common::{hall_roof, table, Scratch, HEADER, ROW_A, ROW_B, ROW_E};

#[test]
fn a_giant_line() {
    const SIZE: usize = 10_000_000;
    for filler in ["x", "7", ",", "\"", ";\"", "\u{1F4A9}", "1,"] {
        let giant = filler.repeat(SIZE / filler.len());
        let run = table(format!("{HEADER}\n{ROW_A}\nG,{giant}\n{ROW_B}\n"));
        assert_eq!(
            run.summary(),
            "3 rows: 2 passed, 0 failed, 1 refused",
            "{filler}"
        );
        assert!(run.out.len() < 2000, "{filler}");
        table(&giant);
    }
}

#[test]
fn a_hundred_thousand_rows() {
    let sheet = hall_roof();
    let rows: Vec<&str> = sheet.lines().skip(1).collect();
    let mut long = String::from(sheet.lines().next().unwrap());
    for row in rows.iter().cycle().take(100_000) {
        long.push('\n');
        long.push_str(row);
    }
    let run = table(&long);
    assert_eq!(
        run.summary(),
        "100000 rows: 68257 passed, 20634 failed, 11109 refused"
    );
    assert_eq!(run.err, "", "no progress where nobody watches");
}

/// Lines without an end, without content, or of quotes that are not closed.
#[test]
fn much_of_nothing() {
    let blank = table("\n".repeat(50_000_000));
    assert_eq!((blank.code, blank.out.as_str()), (2, ""));
    assert!(blank.err.ends_with(": the first 10000 lines are blank\n"));
    for line in [
        "\"x",
        "x,\"",
        "x\"",
        "\"1,2,3",
        ",,,,b\",\"c",
        ",,,,,,,,,,,,,,,,,,,,,,,,,,b\",\"c",
    ] {
        let content = format!("{HEADER}\n{}", format!("{line}\n").repeat(100_000));
        let run = table(content);
        assert_eq!(run.code, 1, "{line}");
        let refused = " rows: 0 passed, 0 failed, ";
        assert!(run.summary().contains(refused), "{line}: {}", run.summary());
    }
    for line in ["\"", "\"\"", "\"\",\"\"", ",\""] {
        let content = format!("{HEADER}\n{}", format!("{line}\n").repeat(100_000));
        assert!(table(content).err.ends_with(": there are no rows\n"));
    }
}

#[test]
fn random_bytes() {
    const LIKELY: &[u8] = b",,,;;\t\"\"\n\n\r 0123456789012345678901234.-+eEkind\0\xFF\xD0";
    let mut state = 0x9E37_79B9_7F4A_7C15_u64;
    let mut draw = |below: usize| {
        state ^= state << 13;
        state ^= state >> 7;
        state ^= state << 17;
        (state >> 11) as usize % below
    };
    for round in 0..300 {
        let length = draw(3000);
        let mut content: Vec<u8> = match round % 3 {
            0 => Vec::new(),
            1 => format!("{HEADER}\n").into_bytes(),
            _ => format!("{HEADER}\n{ROW_A}\n{ROW_B}\n{ROW_E}\n").into_bytes(),
        };
        for _ in 0..length {
            let byte = if round % 2 == 0 {
                draw(256) as u8
            } else {
                LIKELY[draw(LIKELY.len())]
            };
            content.push(byte);
        }
        let file = Scratch::new(&content);
        let run = file.run(&[]);
        assert!(
            run.code == 2 && !run.err.is_empty() || run.summary().contains(" passed, "),
            "{content:?}"
        );
        assert_eq!(file.run(&["--csv"]).code, run.code);
        let strengths = file.run(&["--strengths"]);
        assert_eq!(strengths.code == 2, run.code == 2, "{content:?}");
    }
}
