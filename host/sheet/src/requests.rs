//! Whether some row of a sheet asks for what is on request, which has to be known before the first is answered.
use crate::columns::{is_number, typed, Basis, Columns};
use crate::fields;
use crate::lines::{Line, Lines, Shape};
use crate::number::Typed;

/// The columns, knowing whether some row asks. Where the order decides and none does, there are no columns to ask in.
pub fn settled(mut columns: Columns, rows: Lines) -> Columns {
    columns.requested = is_in(rows, &columns);
    match columns.basis {
        Basis::NoHeader | Basis::Asked if !columns.requested => columns.without_request(),
        _ => columns,
    }
}

fn is_in(mut rows: Lines, columns: &Columns) -> bool {
    let places = columns.on_request();
    let (Some(first), Some(last)) = (places.first(), places.last()) else {
        return false;
    };
    let mut further = Further::default();
    while let Some(line) = rows.next_line(Shape::In(columns)) {
        let fills = asks(&line, columns, &places);
        if fills && (columns.basis == Basis::Headings || ends_in(&line, columns, *last)) {
            return true;
        }
        if columns.basis != Basis::Headings {
            further.add(&line, columns, *first);
        }
    }
    further.are_numbers()
}

/// What lines hold that end in the first of these columns, or past the last: where the order decides, a lone number may be the
/// first cell of a row that asks, but not where others have a remark in its place.
#[derive(Default)]
struct Further {
    numbers: bool,
    others: bool,
}

impl Further {
    fn add(&mut self, line: &Line, columns: &Columns, first: usize) {
        let (fields, mut rest) = columns.split(line.text);
        let lone = fields
            .get(first)
            .filter(|field| fields.len() == first + 1 && !fields::is_empty(field));
        let is_further = lone.is_some() || rest.any(|field| !fields::is_empty(&field));
        // A line without numbers is no row.
        if !is_further || columns.numbers_from(0, line.text) == 0 {
            return;
        }
        match lone {
            Some(field) if is_number(field, columns.separator) => self.numbers = true,
            _ => self.others = true,
        }
    }

    fn are_numbers(&self) -> bool {
        self.numbers && !self.others
    }
}

/// Whether a line fills one of these columns. A line without numbers is of units, or a header.
fn asks(line: &Line, columns: &Columns, places: &[usize]) -> bool {
    let (fields, _) = columns.split(line.text);
    let is_filled = |place: &usize| {
        let field = fields.get(*place);
        field.is_some_and(|field| typed(field, columns.separator) != Typed::Blank)
    };
    places.iter().any(is_filled) && columns.numbers_from(0, line.text) > 0
}

/// Whether a line has a field at this place, and nothing past the columns: where the order decides, other columns than those
/// that are asked in may stand after the cells, more of them or fewer.
fn ends_in(line: &Line, columns: &Columns, last: usize) -> bool {
    let (fields, mut rest) = columns.split(line.text);
    fields.len() > last && rest.all(|field| fields::is_empty(&field))
}
