//! Files that the program writes: whole or not at all, and never over what somebody may need.

use std::ffi::OsStr;
use std::fs::{self, File};
use std::io::{self, ErrorKind, Write};
use std::os::unix::fs::MetadataExt;
use std::path::{Path, PathBuf};

use crate::command::Failure;
use crate::kind::Kind;
use crate::other::Other;
use crate::problem::shown_name;
use crate::scenario::is_scenario;
use crate::source;

/// Refuses a file that the command reads, by whatever name, and one that looks like what somebody wrote, unless it may be lost.
pub fn may_write(file: &OsStr, read: &[&OsStr], force: bool) -> Result<(), Failure> {
    let lost = |why: &str| Failure::Usage(format!("{} {why}", shown_name(file)));
    if read.iter().any(|own| is_same(own, file)) {
        return Err(lost("is read by this command: it would be lost"));
    }
    let held = Path::new(file).is_file().then(|| source::read(file).ok()).flatten();
    let named = |bytes: Vec<u8>| match Other::of(&bytes) {
        Some(other) => Some(other.named()),
        None => Kind::held(&bytes)
            .map(Kind::named)
            .or_else(|| is_scenario(&bytes).then_some(Other::Scenario.named())),
    };
    match held.and_then(named) {
        Some(kind) if !force => {
            Err(lost(&format!("looks like {kind}, which would be lost; --force writes over it")))
        }
        _ => Ok(()),
    }
}

/// Whether two names lead to one file.
fn is_same(read: &OsStr, written: &OsStr) -> bool {
    let place = |path: &OsStr| fs::metadata(path).map(|found| (found.dev(), found.ino()));
    let read = if read == "-" { OsStr::new("/dev/stdin") } else { read };
    place(read).is_ok_and(|read| place(written).is_ok_and(|written| read == written))
}

/// Writes a file beside the one that is there, and puts it in its place once it is whole. What is no file, such as a device, is
/// written where it stands. Tells why it cannot.
pub fn write(file: &OsStr, bytes: &[u8]) -> Result<(), String> {
    let told = |error: io::Error| match error.kind() {
        ErrorKind::IsADirectory => "this is a folder".to_string(),
        ErrorKind::PermissionDenied => "the file may not be written by this user".to_string(),
        _ => error.to_string(),
    };
    let old = fs::metadata(file).ok();
    if old.as_ref().is_some_and(|old| !old.is_file()) {
        return fs::write(file, bytes).map_err(told);
    }
    // a link keeps leading to its file, and one that may not be written stays
    let path = fs::canonicalize(file).unwrap_or_else(|_| PathBuf::from(file));
    if old.is_some() {
        File::options().write(true).open(&path).map_err(told)?;
    }
    let beside = path.with_file_name(format!(".fairleadow-{}", std::process::id()));
    // one that an ended run of the same number left
    let _ = fs::remove_file(&beside);
    let new = File::options().write(true).create_new(true).open(&beside);
    let mut new = new.map_err(|error| no_file_in(path.parent().unwrap_or(Path::new("")), &error))?;
    let mut whole = || {
        new.write_all(bytes)?;
        if let Some(old) = &old {
            new.set_permissions(old.permissions())?;
        }
        new.sync_all()?;
        fs::rename(&beside, &path)
    };
    whole().map_err(|error| {
        drop(fs::remove_file(&beside));
        told(error)
    })
}

/// Why no file can be made in a folder.
fn no_file_in(folder: &Path, error: &io::Error) -> String {
    let folder = if folder.as_os_str().is_empty() { Path::new(".") } else { folder };
    let name = shown_name(folder);
    match fs::metadata(folder) {
        Ok(found) if !found.is_dir() => format!("{name} is no folder"),
        Err(missing) if missing.kind() == ErrorKind::NotFound => format!("there is no folder {name}"),
        _ if error.kind() == ErrorKind::PermissionDenied => {
            format!("this user may not make a file in the folder {name}")
        }
        _ => format!("no file can be made in the folder {name}: {error}"),
    }
}
