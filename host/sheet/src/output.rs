//! Where the answers go, all at once: to standard output, or to a file that is replaced as a whole.
use std::ffi::OsString;
use std::fs::{self, File, Metadata, OpenOptions};
use std::io::{self, Write};
use std::os::fd::AsFd;
use std::path::{Path, PathBuf};

/// What is known of the file that standard output leads into.
pub fn of_standard_output() -> io::Result<Metadata> {
    File::from(io::stdout().as_fd().try_clone_to_owned()?).metadata()
}

pub fn to_standard_output(bytes: &[u8]) -> io::Result<()> {
    let mut output = io::stdout().lock();
    output.write_all(bytes)?;
    output.flush()
}

/// Writes a new file beside the old one and puts it in that one's place when all of it is on the disk.
///
/// Until then the old file stands as it is. Where that cannot be done, the new one is removed.
pub fn to_file(path: &Path, bytes: &[u8]) -> io::Result<()> {
    let target = behind_links(path)?;
    let old = old_file(&target)?;
    let beside = beside(&target)?;
    let new = OpenOptions::new()
        .write(true)
        .create_new(true)
        .open(&beside)?;
    let replaced = written(new, old.as_ref(), bytes).and_then(|()| fs::rename(&beside, &target));
    if replaced.is_err() {
        let _ = fs::remove_file(&beside);
    }
    replaced
}

/// A link stays, and what it leads to is replaced.
fn behind_links(path: &Path) -> io::Result<PathBuf> {
    match fs::canonicalize(path) {
        Ok(target) => Ok(target),
        Err(_) if fs::symlink_metadata(path).is_ok() => {
            Err(io::Error::other("it is a link that leads nowhere"))
        }
        Err(_) => Ok(path.to_owned()),
    }
}

/// The file that is to be replaced, if there is one: a file, and one that may be written to.
fn old_file(target: &Path) -> io::Result<Option<File>> {
    match fs::metadata(target) {
        Err(error) if error.kind() == io::ErrorKind::NotFound => Ok(None),
        Err(error) => Err(error),
        Ok(data) if !data.is_file() => Err(io::Error::other("it is no file")),
        Ok(_) => OpenOptions::new().append(true).open(target).map(Some),
    }
}

/// A name of its own in the same folder, so that replacing is one step.
fn beside(target: &Path) -> io::Result<PathBuf> {
    let name = target
        .file_name()
        .ok_or_else(|| io::Error::other("it is no file"))?;
    let mut new = OsString::from(name);
    new.push(format!(".{}.new", std::process::id()));
    Ok(target.with_file_name(new))
}

/// All bytes on the disk, with the permissions of the old file.
fn written(mut new: File, old: Option<&File>, bytes: &[u8]) -> io::Result<()> {
    if let Some(old) = old {
        new.set_permissions(old.metadata()?.permissions())?;
    }
    new.write_all(bytes)?;
    new.sync_all()
}
