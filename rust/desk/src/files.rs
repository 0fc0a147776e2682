//! Files: found in folders, read within bounds, written whole or not at all.

use std::fs::{self, File, OpenOptions};
use std::io::{self, Read, Write};
use std::path::{Path, PathBuf};
use std::process;

use crate::formats::{Format, text};
use crate::model::Drawing;

/// The most bytes of a file that is read: 1 GiB.
pub const MOST_BYTES: u64 = 1 << 30;

/// A file that has been read.
pub struct Loaded {
    /// Its format.
    pub format: Format,
    /// Its bytes.
    pub bytes: Vec<u8>,
    /// What they hold.
    pub drawing: Drawing,
}

/// Reads a file, or says why it cannot be read.
pub fn load(path: &Path) -> Result<Loaded, String> {
    let format = format_of(path)?;
    let bytes = read_bytes(path, MOST_BYTES)?;
    let drawing = format.read(&bytes).map_err(|bad| bad.to_string())?;
    Ok(Loaded { format, bytes, drawing })
}

/// The format of a file, or what is wrong with its name.
pub fn format_of(path: &Path) -> Result<Format, String> {
    Format::of_path(path).ok_or_else(|| format!("the name does not end in {}", endings()))
}

fn endings() -> String {
    let [first @ .., last] = Format::ALL.map(|format| format!(".{}", format.ending()));
    format!("{} or {last}", first.join(", "))
}

/// The bytes of a file, or that it has more than these.
fn read_bytes(path: &Path, most: u64) -> Result<Vec<u8>, String> {
    let mut bytes = Vec::new();
    let file = File::open(path).map_err(|error| error.to_string())?;
    let known = file.metadata().map_or(0, |known| known.len());
    if known <= most {
        // A device may have no end, and a file may grow while it is read.
        file.take(most + 1).read_to_end(&mut bytes).map_err(|error| error.to_string())?;
    }
    if known > most || bytes.len() as u64 > most {
        return Err(format!("the file has more than {most} bytes"));
    }
    Ok(bytes)
}

/// The size of a file. Of what is no plain file it is not known, and is taken to be the most.
pub fn size(path: &Path) -> u64 {
    fs::metadata(path).map_or(0, |known| if known.is_file() { known.len() } else { MOST_BYTES })
}

/// A file that was named, or found in a folder that was; or why a folder gives none.
pub type Found = Result<PathBuf, (PathBuf, String)>;

/// The files that are named: of a folder all in it and below it that have an ending of ours, in the
/// order of their names.
pub fn found(named: &[PathBuf]) -> Vec<Found> {
    let mut all = Vec::new();
    for path in named {
        if !path.is_dir() {
            all.push(Ok(path.clone()));
            continue;
        }
        let before = all.len();
        walk(path, &mut all);
        if all.len() == before {
            let none = format!("the folder holds no file whose name ends in {}", endings());
            all.push(Err((path.clone(), none)));
        }
    }
    all
}

fn walk(folder: &Path, all: &mut Vec<Found>) {
    let entries = fs::read_dir(folder).and_then(|entries| entries.collect::<io::Result<Vec<_>>>());
    let mut entries = match entries {
        Ok(entries) => entries,
        Err(error) => return all.push(Err((folder.to_path_buf(), error.to_string()))),
    };
    entries.sort_by_key(fs::DirEntry::file_name);
    for entry in entries {
        let path = entry.path();
        // The kind of a link is that of a link: a folder that links to one above it is not entered.
        match entry.file_type() {
            Ok(kind) if kind.is_dir() => walk(&path, all),
            _ if Format::of_path(&path).is_none() => {}
            Ok(kind) if kind.is_file() => all.push(Ok(path)),
            _ => all.extend(linked(path)),
        }
    }
}

/// What a link in a folder gives. A link to nothing is told of when it is read, and a pipe, which would be waited for
/// without end, here.
fn linked(path: PathBuf) -> Option<Found> {
    match fs::metadata(&path) {
        Ok(known) if known.is_dir() => None,
        Ok(known) if !known.is_file() => Some(Err((path, "that is no plain file".to_string()))),
        _ => Some(Ok(path)),
    }
}

/// Writes a file whole or not at all. One that is there is replaced only where that is allowed.
pub fn write_whole(path: &Path, bytes: &[u8], replace: bool) -> Result<(), String> {
    let there = fs::symlink_metadata(path).is_ok();
    if there && !replace {
        return Err("the file is there already; --force replaces it".to_string());
    }
    // What a link names is replaced, not the link.
    let target = if there { path.canonicalize().map_err(|error| error.to_string())? } else { path.to_path_buf() };
    if there && !target.is_file() {
        return Err("that is no plain file".to_string());
    }
    target.file_name().ok_or("that is no name of a file")?;
    let part = target.with_file_name(format!(".wegrusamt-{}.part", process::id()));
    let mut file = OpenOptions::new().write(true).create_new(true).open(&part).map_err(|error| {
        // The part is named where it is what stands in the way: it may be left from a run that was broken off.
        if error.kind() == io::ErrorKind::AlreadyExists {
            format!("{}: {error}", text::name(part.as_os_str().as_encoded_bytes()))
        } else {
            error.to_string()
        }
    })?;
    let written = fill(&mut file, bytes, &target).and_then(|()| put_in_place(&part, &target, replace));
    if written.is_err() {
        // It may not be there; what went wrong before is what is told.
        let _ = fs::remove_file(&part);
    }
    written.map_err(|error| error.to_string())
}

/// Writes the bytes to the part. It has the target's permissions before it has a byte, where the target is there.
fn fill(file: &mut File, bytes: &[u8], target: &Path) -> io::Result<()> {
    if let Ok(known) = fs::metadata(target) {
        file.set_permissions(known.permissions())?;
    }
    file.write_all(bytes)?;
    file.sync_all()
}

/// Gives the part its name. A link is made where nothing may be replaced, since it fails where the
/// name has been taken meanwhile, as a renaming would not.
fn put_in_place(part: &Path, target: &Path, replace: bool) -> io::Result<()> {
    if replace {
        return fs::rename(part, target);
    }
    match fs::hard_link(part, target) {
        Ok(()) => fs::remove_file(part),
        Err(error) if error.kind() == io::ErrorKind::AlreadyExists => Err(error),
        // The file system has no links. A file that has come up here meanwhile would be replaced.
        Err(_) => fs::rename(part, target),
    }
}

#[cfg(test)]
mod tests {
    use super::*;

    #[test]
    fn a_file_is_replaced_only_where_that_is_allowed() {
        let folder = tempfile::tempdir().unwrap();
        let path = folder.path().join("a.obj");
        write_whole(&path, b"one", false).unwrap();
        let told = write_whole(&path, b"two", false).unwrap_err();
        assert_eq!(told, "the file is there already; --force replaces it");
        assert_eq!(fs::read(&path).unwrap(), b"one");
        write_whole(&path, b"two", true).unwrap();
        assert_eq!(fs::read(&path).unwrap(), b"two");
        assert_eq!(fs::read_dir(folder.path()).unwrap().count(), 1);
    }

    #[test]
    fn what_a_link_names_is_replaced() {
        let folder = tempfile::tempdir().unwrap();
        let [path, link] = ["a.obj", "link.obj"].map(|name| folder.path().join(name));
        fs::write(&path, "one").unwrap();
        std::os::unix::fs::symlink(&path, &link).unwrap();
        write_whole(&link, b"two", true).unwrap();
        assert_eq!(fs::read(&path).unwrap(), b"two");
        assert!(fs::symlink_metadata(&link).unwrap().is_symlink());
    }

    #[test]
    fn nothing_is_left_where_a_file_cannot_be_written() {
        let folder = tempfile::tempdir().unwrap();
        let told = write_whole(&folder.path().join("none/a.obj"), b"one", false).unwrap_err();
        assert!(told.contains("No such file"), "{told}");
        let told = write_whole(folder.path(), b"one", true).unwrap_err();
        assert_eq!(told, "that is no plain file");
        assert_eq!(fs::read_dir(folder.path()).unwrap().count(), 0);
    }

    #[test]
    fn a_folder_gives_its_files_in_order() {
        let folder = tempfile::tempdir().unwrap();
        let path = |name: &str| folder.path().join(name);
        fs::create_dir(path("b")).unwrap();
        for name in ["c.stl", "a.OBJ", "b/z.ply", "b/y.cell", "notes.txt"] {
            fs::write(path(name), "").unwrap();
        }
        std::os::unix::fs::symlink(folder.path(), path("b/up")).unwrap();
        let expected = ["a.OBJ", "b/y.cell", "b/z.ply", "c.stl"].map(|name| Ok(path(name)));
        assert_eq!(found(&[folder.path().to_path_buf()]), expected);
        fs::create_dir(path("empty")).unwrap();
        let told = found(&[path("empty")])[0].clone().unwrap_err().1;
        assert_eq!(told, "the folder holds no file whose name ends in .obj, .off, .ply, .stl or .cell");
    }

    #[test]
    fn a_file_without_an_end_is_not_read() {
        assert_eq!(read_bytes(Path::new("/dev/zero"), 1000).unwrap_err(), "the file has more than 1000 bytes");
        let folder = tempfile::tempdir().unwrap();
        let path = folder.path().join("a.obj");
        fs::write(&path, [b'#'; 1001]).unwrap();
        assert_eq!(read_bytes(&path, 1000).unwrap_err(), "the file has more than 1000 bytes");
        assert_eq!(read_bytes(&path, 1001).unwrap().len(), 1001);
    }

    #[test]
    fn permissions_are_kept_and_a_part_of_another_is_not_touched() {
        use std::os::unix::fs::PermissionsExt;
        let folder = tempfile::tempdir().unwrap();
        let path = folder.path().join("a.obj");
        fs::write(&path, "one").unwrap();
        fs::set_permissions(&path, fs::Permissions::from_mode(0o600)).unwrap();
        write_whole(&path, b"two", true).unwrap();
        assert_eq!(fs::metadata(&path).unwrap().permissions().mode() & 0o777, 0o600);
        let part = folder.path().join(format!(".wegrusamt-{}.part", process::id()));
        fs::write(&part, "another's").unwrap();
        let told = write_whole(&path, b"three", true).unwrap_err();
        assert!(told.starts_with(&format!("{}: ", part.display())), "{told}");
        assert_eq!((fs::read(&part).unwrap(), fs::read(&path).unwrap()), (b"another's".to_vec(), b"two".to_vec()));
    }

    #[test]
    fn a_pipe_in_a_folder_is_told_and_not_waited_for() {
        let folder = tempfile::tempdir().unwrap();
        let pipe = folder.path().join("a.obj");
        assert!(process::Command::new("mkfifo").arg(&pipe).status().unwrap().success());
        assert_eq!(found(&[folder.path().to_path_buf()]), [Err((pipe, "that is no plain file".to_string()))]);
    }
}
