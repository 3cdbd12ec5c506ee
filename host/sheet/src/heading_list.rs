//! The headings that are known, as a person reads them.
use crate::heading_names::CellNames;
use crate::schema::Schema;
use crate::text::width;

/// How wide the list is.
const WIDTH: usize = 80;

/// How far its first column reaches.
const INDENT: usize = 10;

/// A paragraph for the names, for each cell and for the answers.
pub fn all(schema: &Schema) -> String {
    let cells = schema
        .cells
        .iter()
        .map(|cell| paragraph(&cell.label(), &listed(cell.names)));
    let names = schema.names.iter().map(|name| name.to_string());
    let answers = schema.answers.iter();
    let answers = answers.map(|answer| answer.heading.to_owned());
    [paragraph(schema.one, &names.collect::<Vec<_>>())]
        .into_iter()
        .chain(cells)
        .chain([paragraph("answers", &answers.collect::<Vec<_>>())])
        .collect()
}

/// The symbol, the words that do without it, and with it those that do not.
fn listed(names: &CellNames) -> Vec<String> {
    let alone = [names.symbol]
        .into_iter()
        .chain(names.words.iter().copied());
    let beside = names
        .beside_symbol
        .iter()
        .map(|word| format!("{word} {}", names.symbol));
    alone
        .filter(|name| !name.is_empty())
        .map(str::to_owned)
        .chain(beside)
        .collect()
}

/// The names after what they name, in lines of bounded width.
fn paragraph(what: &str, names: &[String]) -> String {
    let mut text = String::new();
    let mut line = format!("{what:>8} ");
    for (i, name) in names.iter().enumerate() {
        let mark = if i + 1 < names.len() { "," } else { "" };
        if width(&line) + width(name) + 2 > WIDTH {
            text += &line;
            text += "\n";
            line = " ".repeat(INDENT - 1);
        }
        line += &format!(" {name}{mark}");
    }
    text + &line + "\n"
}
