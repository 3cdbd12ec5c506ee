//! The answers that are written beside a row, each in a column of its own.
use crate::answer_columns::HEADINGS;
use crate::judgement::{governing, Check, Governing, Judged, Refused};
use crate::row::SheetRow;

#[derive(Clone, Copy)]
pub struct Answer {
    pub heading: &'static str,
    /// Empty where there is nothing to say.
    pub text: fn(&SheetRow, &Judged) -> String,
}

pub const VERDICT: Answer = Answer {
    heading: HEADINGS[0],
    text: |_, judged| {
        match governing(judged) {
            Ok(governing) => pass_or_fail(governing.passes),
            Err(_) => "refused",
        }
        .to_owned()
    },
};

pub const CHECK: Answer = Answer {
    heading: HEADINGS[1],
    text: |_, judged| {
        of_governing(judged, |governing| match governing.check {
            Check::Numbered(number) => number.to_string(),
            Check::Sag => "sag".to_owned(),
        })
    },
};

pub const UTILISATION: Answer = Answer {
    heading: HEADINGS[2],
    text: |_, judged| of_governing(judged, |governing| governing.utilisation.to_string()),
};

pub const COUNT: Answer = Answer {
    heading: HEADINGS[3],
    text: |_, judged| {
        let found = judged.as_ref();
        found.map_or(String::new(), |found| found.strength().count.to_string())
    },
};

pub const REFUSAL: Answer = Answer {
    heading: HEADINGS[4],
    text: |_, judged| match governing(judged) {
        Ok(_) => String::new(),
        Err(Refused::ByAddin(refusal)) => refusal.number.to_string(),
        Err(Refused::OpenQuote) => "open quote".to_owned(),
        Err(Refused::ExtraColumn) => "extra column".to_owned(),
    },
};

pub const REFUSED_CELL: Answer = Answer {
    heading: HEADINGS[5],
    text: |_, judged| match governing(judged) {
        Err(Refused::ByAddin(refusal)) => refusal.cell.to_string(),
        _ => String::new(),
    },
};

/// A verdict in a column of its own.
pub fn pass_or_fail(passes: bool) -> &'static str {
    if passes {
        "pass"
    } else {
        "fail"
    }
}

fn of_governing(judged: &Judged, text: fn(&Governing) -> String) -> String {
    governing(judged).map_or(String::new(), |governing| text(&governing))
}
