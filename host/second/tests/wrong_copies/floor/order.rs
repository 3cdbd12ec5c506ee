//! Wrong copies of the order of the refusals, and of the cells that they name.
use lvl_addin::answer::Refusal;
use lvl_addin::floor_beam::BeamVerdict;
use lvl_second::cells::{cell, Cells};
use lvl_second::floor_beam::{FloorBeam, Loads, LOAD_CELLS, ROW_CELLS};
use lvl_second::{BeamRead, FloorRules, Paper, Rules};

/// Loads and a span with which nothing is wrong.
const GOOD_LOADS: Loads = Loads {
    first: 0,
    second: 100,
    span: 500,
};

/// The place of a cell of the row among those that the beam has, from 0.
fn place(number: u32) -> Option<u32> {
    let at = ROW_CELLS.iter().position(|&own| own as u32 == number)?;
    Some(at as u32)
}

/// A refusal that counts the row's cells by their places, from a first number.
fn by_place(refusal: Refusal, from: u32) -> Refusal {
    Refusal {
        cell: place(refusal.cell).map_or(refusal.cell, |at| from + at),
        ..refusal
    }
}

fn unreadable(number: usize) -> Refusal {
    Paper::unreadable(number)
}

/// The row's cells of a beam with what does not read left blank.
fn readable(read: &BeamRead) -> Cells {
    let mended = read.map(|cell| cell.or(Some(None)));
    Paper::given_cells(&mended).expect("every cell reads")
}

/// The row check of what reads.
fn check_readable(read: &BeamRead) -> Result<BeamVerdict, Refusal> {
    Paper::check_beam(&FloorBeam {
        loads: GOOD_LOADS,
        given: readable(read),
    })
}

wrong_copies! { FloorRules, Flooring:
    LoadsAfterUnreadableCells {
        fn read_beam(beam: &[u8]) -> Result<FloorBeam, Refusal> {
            Paper::given_cells(&Paper::read_beam_cells(beam)?)?;
            Paper::read_beam(beam)
        }
    }
    LoadsAfterTheRow {
        fn read_beam(beam: &[u8]) -> Result<FloorBeam, Refusal> {
            let given = Paper::given_cells(&Paper::read_beam_cells(beam)?)?;
            Paper::check_beam(&FloorBeam { loads: GOOD_LOADS, given })?;
            Paper::read_beam(beam)
        }
    }
    LoadsAfterBlankCells {
        fn read_beam(beam: &[u8]) -> Result<FloorBeam, Refusal> {
            let row = check_readable(&Paper::read_beam_cells(beam)?);
            let read = Paper::read_beam(beam);
            match row {
                Err(blank) if blank.number == 2 && read.is_err_and(|found| found.number == 8) => Err(blank),
                _ => read,
            }
        }
    }
    UnreadableCellsAfterTheRow {
        fn read_beam(beam: &[u8]) -> Result<FloorBeam, Refusal> {
            let read = Paper::read_beam_cells(beam)?;
            let [first, second, span, ..] = read;
            Paper::loads(&[first, second, span])?;
            let any = Paper::given_cells(&read);
            match check_readable(&read) {
                Err(row) if any.is_err() && place(row.cell).is_some_and(|at| read[LOAD_CELLS + at as usize].is_some()) => Err(row),
                _ => Paper::read_beam(beam),
            }
        }
    }
    UnreadableCellsAsBlank {
        fn given_cells(read: &BeamRead) -> Result<Cells, Refusal> {
            Ok(readable(read))
        }
    }
    UnreadableCellsAsRefusal8 {
        fn unreadable(_number: usize) -> Refusal {
            Refusal { number: 8, cell: 0 }
        }
    }
    UnreadableCellsNotNamed {
        fn unreadable(_number: usize) -> Refusal {
            Refusal { number: 1, cell: 0 }
        }
    }
    HighestUnreadableCell {
        fn given_cells(read: &BeamRead) -> Result<Cells, Refusal> {
            match read[LOAD_CELLS..].iter().rposition(Option::is_none) {
                Some(at) => Err(unreadable(ROW_CELLS[at])),
                None => Paper::given_cells(read),
            }
        }
    }
    UnreadableCellsByPlace {
        fn unreadable(number: usize) -> Refusal {
            by_place(unreadable(number), 1)
        }
    }
    UnreadableCellsByPlaceInTheBeam {
        fn unreadable(number: usize) -> Refusal {
            by_place(unreadable(number), LOAD_CELLS as u32 + 1)
        }
    }
    UnreadableCellsByPlaceAfterTheKind {
        fn unreadable(number: usize) -> Refusal {
            by_place(unreadable(number), 2)
        }
    }
    RowRefusalsByPlace {
        fn check_beam(beam: &FloorBeam) -> Result<BeamVerdict, Refusal> {
            Paper::check_beam(beam).map_err(|found| by_place(found, 1))
        }
    }
    RowRefusalsByPlaceInTheBeam {
        fn check_beam(beam: &FloorBeam) -> Result<BeamVerdict, Refusal> {
            Paper::check_beam(beam).map_err(|found| by_place(found, LOAD_CELLS as u32 + 1))
        }
    }
    RowRefusalsNotNamed {
        fn check_beam(beam: &FloorBeam) -> Result<BeamVerdict, Refusal> {
            Paper::check_beam(beam).map_err(|found| Refusal { cell: 0, ..found })
        }
    }
    RowRefusalsAs8 {
        fn check_beam(beam: &FloorBeam) -> Result<BeamVerdict, Refusal> {
            Paper::check_beam(beam).map_err(|_| Refusal { number: 8, cell: 0 })
        }
    }
    /// Tells of an unknown grade before a blank cell.
    CodesBeforeBlanks {
        fn check_beam(beam: &FloorBeam) -> Result<BeamVerdict, Refusal> {
            match cell(&beam.given, 2) {
                Some(code) if Paper::grade(code).is_none() => Err(Refusal { number: 3, cell: 2 }),
                _ => Paper::check_beam(beam),
            }
        }
    }
    RangesBeforeCodesAndBlanks {
        fn check_beam(beam: &FloorBeam) -> Result<BeamVerdict, Refusal> {
            Paper::refuse_outside_range(&beam.given)?;
            Paper::check_beam(beam)
        }
    }
    BlankMoistureAsDry {
        fn given_cells(read: &BeamRead) -> Result<Cells, Refusal> {
            let mut given = Paper::given_cells(read)?;
            given[3] = given[3].or(Some(12));
            Ok(given)
        }
    }
    BlankOfficeFactorAsOne {
        fn given_cells(read: &BeamRead) -> Result<Cells, Refusal> {
            let mut given = Paper::given_cells(read)?;
            given[4] = given[4].or(Some(1000));
            Ok(given)
        }
    }
}
