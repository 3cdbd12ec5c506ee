//! The sheet once more, with the answers in columns of their own.
use crate::columns::{Column, Columns};
use crate::encoding::Encoding;
use crate::fields::{self, Fields};
use crate::formulas::kept_as_text;
use crate::headings::Heading;
use crate::moment_doubts::{self, MomentDoubts};
use crate::opening::Opening;
use crate::row::{Outcome, SheetRow};
use crate::schema::Schema;
use crate::text::visible;
use crate::Report;
use std::borrow::Cow;

/// The headings of a member's answers. A sheet that has them already gets new answers in their place.
pub const HEADINGS: [&str; 6] = [
    "verdict",
    "check",
    "utilisation in millionths",
    "count",
    "refusal",
    "refused cell",
];

/// How the lines go out.
#[derive(Clone, Copy)]
pub enum Lettering {
    /// As the sheet came in.
    Encoded(Encoding),
    /// For a terminal: UTF-8, and nothing that it would obey or hide.
    Visible,
}

pub struct AnswerColumns {
    output: Vec<u8>,
    lettering: Lettering,
    doubts: MomentDoubts,
}

impl AnswerColumns {
    pub fn new(lettering: Lettering) -> AnswerColumns {
        AnswerColumns {
            output: Vec::new(),
            lettering,
            doubts: MomentDoubts::default(),
        }
    }

    /// The fields, the answers in the columns that they have already or else in new ones, and what stood further right.
    fn add<'a>(
        &mut self,
        columns: &Columns,
        mut fields: Vec<Cow<'a, [u8]>>,
        answers: Vec<String>,
        extra: Fields<'a>,
    ) {
        fields.resize(columns.width(), Cow::Borrowed(b""));
        for (number, answer) in answers.into_iter().enumerate() {
            let answer = Cow::Owned(answer.into_bytes());
            match columns.place_of(Heading::Answer(number)) {
                Some(place) => fields[place] = answer,
                None => fields.push(answer),
            }
        }
        self.add_fields(fields.into_iter().chain(extra), columns.separator);
    }

    fn add_fields<'a>(&mut self, fields: impl Iterator<Item = Cow<'a, [u8]>>, separator: u8) {
        let mut line = Vec::new();
        for (i, field) in fields.enumerate() {
            if i > 0 {
                line.push(separator);
            }
            fields::append(&mut line, &kept_as_text(field, separator), separator);
        }
        self.add_line(&line);
    }

    fn add_line(&mut self, line: &[u8]) {
        match self.lettering {
            Lettering::Encoded(encoding) => {
                self.output.extend_from_slice(&encoding.encoded(line));
                self.output.extend_from_slice(&encoding.encoded(b"\n"));
            }
            Lettering::Visible => {
                let text = String::from_utf8_lossy(line);
                let text: String = text.chars().map(visible_but_tab).collect();
                self.output.extend_from_slice(text.as_bytes());
                self.output.push(b'\n');
            }
        }
    }
}

impl Report for AnswerColumns {
    /// A sheet without a header gets one.
    fn begin(&mut self, opening: &Opening) {
        if let Lettering::Encoded(encoding) = self.lettering {
            self.output.extend_from_slice(encoding.mark());
        }
        let columns = &opening.columns;
        for line in &opening.above {
            self.add_fields(Fields::of(line.text, columns.separator), columns.separator);
        }
        match &opening.header {
            Some(header) => {
                let (own, extra) = columns.split(header.text);
                let answers = answer_headings(columns, &own);
                self.add(columns, own, answers, extra);
            }
            None => {
                let own = columns
                    .iter()
                    .map(|column| Cow::Borrowed(heading(column, columns.schema).as_bytes()));
                let answers = columns.answers().iter();
                let answers = answers.map(|answer| answer.heading.to_owned()).collect();
                self.add(columns, own.collect(), answers, Fields::none());
            }
        }
    }

    fn blank(&mut self, line: &[u8], columns: &Columns) {
        self.add_fields(Fields::of(line, columns.separator), columns.separator);
    }

    fn row(&mut self, row: &SheetRow) -> Outcome {
        let judged = row.judged();
        let answers = row.columns.answers().iter();
        self.add(
            row.columns,
            row.fields.clone(),
            answers.map(|answer| (answer.text)(row, &judged)).collect(),
            row.extra.clone(),
        );
        self.doubts.add(row, moment_doubts::of_row(row, &judged));
        Outcome::of_judged(&judged)
    }

    fn notes(&self) -> Vec<String> {
        self.doubts.notes()
    }

    fn finish(self) -> Vec<u8> {
        self.output
    }
}

/// A tab parts columns.
fn visible_but_tab(character: char) -> char {
    match character {
        '\t' => '\t',
        character => visible(character),
    }
}

/// The answers' headings, as the header has them already or else their own.
fn answer_headings(columns: &Columns, header: &[Cow<[u8]>]) -> Vec<String> {
    let answers = columns.answers().iter().enumerate();
    answers
        .map(
            |(number, answer)| match columns.place_of(Heading::Answer(number)) {
                Some(place) => String::from_utf8_lossy(&header[place]).into_owned(),
                None => answer.heading.to_owned(),
            },
        )
        .collect()
}

/// The heading of a column in a sheet that has none.
fn heading(column: Column, schema: &Schema) -> &'static str {
    match column {
        Column::Holds(Heading::Member) => schema.one,
        Column::Holds(Heading::Cell(place)) => schema.cell(place).words.name,
        Column::Holds(Heading::Answer(number)) => schema.answers[number].heading,
        Column::Skipped | Column::Unheaded => "",
    }
}
