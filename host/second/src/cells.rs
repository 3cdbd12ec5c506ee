//! The cells of a row by number and by name, and the member that an accepted row describes.
use lvl_addin::row::CELLS;

/// A row of whole numbers, cell 1 first.
pub type Cells = [Option<u64>; CELLS];

pub const KIND: usize = 1;
pub const GRADE: usize = 2;
pub const REGIME: usize = 3;
pub const MOISTURE: usize = 4;
pub const OFFICE_FACTOR: usize = 5;
pub const WIDTH: usize = 6;
pub const HEIGHT: usize = 7;
pub const AXIAL: usize = 8;
pub const MOMENT: usize = 9;
pub const SHEAR: usize = 10;
pub const LENGTH_H: usize = 11;
pub const LENGTH_B: usize = 12;
pub const TABLE_16_ROW: usize = 13;
pub const SIDE_THICKNESS: usize = 14;
pub const DIAMETER: usize = 15;
pub const DOWELS_ACROSS: usize = 16;
pub const JOINT_LENGTH: usize = 17;
pub const KC: usize = 18;
pub const KA: usize = 19;
pub const KB: usize = 20;
pub const KE: usize = 21;
pub const KM: usize = 22;

/// The first and the last of the cells that describe a joint.
pub const FIRST_OF_JOINT: usize = SIDE_THICKNESS;
pub const LAST_OF_JOINT: usize = KM;

/// What a cell holds.
pub fn cell(cells: &Cells, number: usize) -> Option<u64> {
    cells[number - 1]
}

/// What the member carries.
#[derive(Clone, Copy, Debug, PartialEq, Eq)]
pub enum Kind {
    Tension,
    Bending,
    Compression,
    CompressionWithBending,
    TensionWithBending,
}

/// The grade of the veneer lumber.
#[derive(Clone, Copy, Debug, PartialEq, Eq)]
pub enum Grade {
    K45,
    K40,
    K35,
}

/// What the codes of a row stand for.
#[derive(Clone, Copy, Debug)]
pub struct Codes {
    pub grade: Grade,
    /// The duration factor of the regime, hundredths.
    pub duration: u64,
    /// The row of Table 16; none where the kind has no effective lengths.
    pub table_16_row: Option<u64>,
}

/// The factors that every strength takes.
#[derive(Clone, Copy, Debug)]
pub struct Factors {
    /// t, hundredths.
    pub duration: u64,
    /// w, hundredths.
    pub moisture: u64,
    /// o, thousandths.
    pub office: u64,
}

/// A double-shear dowel joint.
#[derive(Clone, Copy, Debug)]
pub struct Joint {
    pub side_thickness: u64,
    pub diameter: u64,
    /// Dowels in one column across the height.
    pub across: u64,
    pub length: u64,
    pub kc: u64,
    pub ka: u64,
    pub kb: u64,
    pub ke: u64,
    pub km: u64,
}

/// The member of an accepted row, in mm, N and N·mm. What its kind leaves blank is 0 and in no check of that kind.
#[derive(Clone, Copy, Debug)]
pub struct Member {
    pub kind: Kind,
    pub grade: Grade,
    pub factors: Factors,
    pub width: u64,
    pub height: u64,
    pub axial: u64,
    pub moment: u64,
    pub shear: u64,
    pub length_h: u64,
    pub length_b: u64,
    pub table_16_row: Option<u64>,
    pub joint: Option<Joint>,
}

impl Member {
    /// The member that the cells of an accepted row describe.
    pub fn new(kind: Kind, codes: Codes, moisture_factor: u64, cells: &Cells) -> Member {
        let value = |number| cell(cells, number).unwrap_or(0);
        Member {
            kind,
            grade: codes.grade,
            factors: Factors {
                duration: codes.duration,
                moisture: moisture_factor,
                office: value(OFFICE_FACTOR),
            },
            width: value(WIDTH),
            height: value(HEIGHT),
            axial: value(AXIAL),
            moment: value(MOMENT),
            shear: value(SHEAR),
            length_h: value(LENGTH_H),
            length_b: value(LENGTH_B),
            table_16_row: codes.table_16_row,
            joint: cell(cells, FIRST_OF_JOINT).map(|side_thickness| Joint {
                side_thickness,
                diameter: value(DIAMETER),
                across: value(DOWELS_ACROSS),
                length: value(JOINT_LENGTH),
                kc: value(KC),
                ka: value(KA),
                kb: value(KB),
                ke: value(KE),
                km: value(KM),
            }),
        }
    }
}
