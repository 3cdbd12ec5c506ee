//! The file that is read: all of it before anything is written.
use std::fs::{File, Metadata};
use std::io::{self, Read};
use std::os::fd::AsFd;
use std::os::unix::fs::MetadataExt;
use std::path::PathBuf;

use crate::text::shown_path;

pub enum Source {
    StandardInput,
    File(PathBuf),
}

/// No spreadsheet saves as much: its sheets end at 1,048,576 rows. A file without an end ends here too.
const MOST_BYTES: u64 = 1 << 28;

/// How a workbook begins: a ZIP archive (.xlsx, .ods), an empty one, a compound file (.xls), XML (.fods and Excel's of 2003).
const WORKBOOKS: [&[u8]; 4] = [
    b"PK\x03\x04",
    b"PK\x05\x06",
    b"\xD0\xCF\x11\xE0\xA1\xB1\x1A\xE1",
    b"<?xml",
];

impl Source {
    /// As it is called in messages.
    pub fn name(&self) -> String {
        match self {
            Source::StandardInput => "standard input".to_owned(),
            Source::File(path) => shown_path(path),
        }
    }

    fn open(&self) -> io::Result<File> {
        match self {
            Source::StandardInput => Ok(io::stdin().as_fd().try_clone_to_owned()?.into()),
            Source::File(path) => File::open(path),
        }
    }
}

/// A sheet's bytes.
pub struct Input {
    pub bytes: Vec<u8>,
    /// Where the file lies that they are from, if it is one.
    place: Option<(u64, u64)>,
}

impl Input {
    /// Whether the bytes are those of this file, by whatever name.
    pub fn is_of(&self, file: &Metadata) -> bool {
        self.place == Some(place(file))
    }
}

/// All bytes of a sheet; what is wrong where they cannot be had, or are none.
pub fn read(source: &Source) -> Result<Input, String> {
    let input = opened(source).map_err(|error| error.to_string())?;
    if input.bytes.len() as u64 > MOST_BYTES {
        return Err(format!("longer than {MOST_BYTES} bytes: this is no sheet"));
    }
    if WORKBOOKS.iter().any(|begin| input.bytes.starts_with(begin)) {
        return Err("this is a workbook; save the sheet as CSV".to_owned());
    }
    Ok(input)
}

/// The bytes up to one more than a sheet may have.
fn opened(source: &Source) -> io::Result<Input> {
    let file = source.open()?;
    let data = file.metadata()?;
    let mut bytes = Vec::new();
    file.take(MOST_BYTES + 1).read_to_end(&mut bytes)?;
    Ok(Input {
        bytes,
        place: data.is_file().then(|| place(&data)),
    })
}

fn place(data: &Metadata) -> (u64, u64) {
    (data.dev(), data.ino())
}
