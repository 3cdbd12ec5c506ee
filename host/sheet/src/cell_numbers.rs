//! The numbers of cells in a row, of those that are looked at by name.

pub const KIND: usize = 1;
pub const GRADE: usize = 2;
pub const REGIME: usize = 3;
pub const MOISTURE: usize = 4;
pub const OFFICE_FACTOR: usize = 5;
pub const WIDTH: usize = 6;
pub const HEIGHT: usize = 7;
pub const MOMENT: usize = 9;
pub const SHEAR_FORCE: usize = 10;
