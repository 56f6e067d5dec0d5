//! Files that are replaced as a whole.
//!
//! A file is never written in place. The new bytes go into a new file in the same folder, which is synced to the disk
//! and then renamed over the old one, and the folder is synced: after a crash the file has the old bytes or the new
//! ones. A failure before the renaming removes the new file. Owner, group, permissions, access control lists and other
//! extended attributes are kept, or nothing is saved; only a file that its group shares may pass to the owner who writes
//! it. A symbolic link is followed: the file that it leads to is
//! replaced. A hard link's other names keep the old bytes. Programs that do not lock can replace the file too: just
//! before the renaming it is looked up once more.

use crate::failure::Failure;
use crate::locked_file::{lock, names_file, LockedFile, Saving};
use crate::new_file::{remove_leftovers, NewFile};
use crate::system;
use crate::text::shown_path;
use std::fs::{self, File};
use std::io::{self, ErrorKind, Read};
use std::os::unix::fs::{fchown, MetadataExt};
use std::path::Path;

const THERE_ALREADY: &str = "is there already, and stays as it is";
const REPLACED: &str = "was replaced meanwhile by another program, and stays as it is now; nothing was saved";

/// Linux and macOS have this number for "operation not permitted", also where a file system has no hard links.
const EPERM: i32 = 1;

/// Nothing has the name, be it a link that leads nowhere, and there is a folder for it.
pub fn check_free(path: &Path) -> Result<(), Failure> {
    match (fs::symlink_metadata(path), fs::metadata(folder(path).join("."))) {
        (Ok(_), _) => Err(Failure::io(path, THERE_ALREADY)),
        (Err(_), Err(error)) => Err(not_made(path, &error)),
        (Err(_), Ok(_)) => Ok(()),
    }
}

/// A new file with these bytes, which is there whole or not at all. What is there already stays as it is.
pub fn create(path: &Path, bytes: &[u8]) -> Result<(), Failure> {
    check_free(path)?;
    let new = NewFile::with_bytes(folder(path), 0o666, bytes).map_err(|error| not_made(path, &error))?;
    new.file.sync_all().map_err(|error| Failure::io(path, error))?;
    match fs::hard_link(&new.path, path) {
        // Its first name goes.
        Ok(()) => drop(new),
        Err(error) if no_links(&error) => take_name(new, path)?,
        Err(error) => return Err(not_made(path, &error)),
    }
    saved(path, path)
}

fn not_made(path: &Path, error: &io::Error) -> Failure {
    match error.kind() {
        ErrorKind::AlreadyExists => Failure::io(path, THERE_ALREADY),
        ErrorKind::NotFound if !folder(path).exists() => no_folder(path),
        _ => Failure::io(path, error),
    }
}

pub fn no_folder(path: &Path) -> Failure {
    Failure::io(path, format!("the folder {} does not exist", shown_path(folder(path))))
}

/// Whether the file system seems to have no hard links.
fn no_links(error: &io::Error) -> bool {
    use ErrorKind::{AlreadyExists, NotFound, PermissionDenied};
    error.raw_os_error() == Some(EPERM) || !matches!(error.kind(), AlreadyExists | NotFound | PermissionDenied)
}

/// Gives a new file its name without a link: an empty file, which is locked, takes the name, and is replaced. A crash
/// in between leaves the empty file.
fn take_name(new: NewFile, path: &Path) -> Result<(), Failure> {
    let empty = File::create_new(path).map_err(|error| not_made(path, &error))?;
    let left = |error: io::Error| Failure::io(path, format!("an empty file is left there: {error}"));
    lock(&empty).map_err(left)?;
    if !names_file(path, &empty).map_err(left)? {
        return Err(Failure::io(path, REPLACED));
    }
    new.rename(path).map_err(left)
}

/// The new bytes of a locked file, on the disk beside it. Dropped, they go, and the file stays.
pub struct Replacement<'a> {
    path: &'a Path,
    old: &'a LockedFile,
    new: NewFile,
}

impl<'a> Replacement<'a> {
    pub fn prepare(path: &'a Path, old: &'a LockedFile, bytes: &[u8]) -> Result<Replacement<'a>, Failure> {
        let new = NewFile::with_bytes(folder(&old.target), 0o600, bytes).map_err(|error| not_saved(path, error))?;
        let kept = keep_access(&new.file, &old.file).and_then(|()| new.file.sync_all());
        kept.map_err(|error| not_saved(path, error))?;
        Ok(Replacement { path, old, new })
    }

    /// Gives them the file's name.
    pub fn finish(self) -> Result<(), Failure> {
        let Replacement { path, old, new } = self;
        if !names_file(&old.target, &old.file).map_err(|error| not_saved(path, error))? {
            return Err(Failure::io(path, REPLACED));
        }
        new.rename(&old.target).map_err(|error| not_saved(path, error))?;
        saved(path, &old.target)
    }
}

fn not_saved(path: &Path, error: io::Error) -> Failure {
    Failure::io(path, format!("not saved, and as it was before: {error}"))
}

/// Replaces the locked file. After a failure it is still there, and no new file is.
pub fn replace(path: &Path, old: &LockedFile, bytes: &[u8]) -> Result<(), Failure> {
    Replacement::prepare(path, old, bytes)?.finish()
}

/// Puts the bytes that are made into a file: it has the old bytes or the new ones. A file that is there is locked
/// before, and `may_go` is asked about its bytes, of which at most `most` are read; where they may not go, `what` says
/// what it is not.
pub fn write_over(
    path: &Path,
    saving: Saving,
    (what, most): (&str, usize),
    may_go: impl FnOnce(&[u8]) -> bool,
    make: impl FnOnce() -> Result<Vec<u8>, Failure>,
) -> Result<(), Failure> {
    if !path.is_symlink() && !path.exists() {
        check_free(path)?;
        let bytes = make()?;
        return if saving.dry_run { Ok(()) } else { write_new(path, &bytes) };
    }
    let old = LockedFile::open(path, saving).map_err(|error| Failure::io(path, error))?;
    let before = read_at_most(&old.file, most).map_err(|error| Failure::io(path, error))?;
    if !may_go(&before) {
        return Err(Failure::io(path, format!("is there already and is no {what}, and stays as it is")));
    }
    let bytes = make()?;
    if saving.dry_run {
        Ok(())
    } else {
        replace(path, &old, &bytes)
    }
}

fn write_new(path: &Path, bytes: &[u8]) -> Result<(), Failure> {
    let new = NewFile::with_bytes(folder(path), 0o666, bytes).map_err(|error| not_made(path, &error))?;
    new.file.sync_all().and_then(|()| new.rename(path)).map_err(|error| Failure::io(path, error))?;
    saved(path, path)
}

/// The bytes of a source to its end, but at most one more than `most`.
pub fn read_at_most(source: impl Read, most: usize) -> io::Result<Vec<u8>> {
    let mut bytes = Vec::new();
    source.take(most as u64 + 1).read_to_end(&mut bytes)?;
    Ok(bytes)
}

/// Gives a new file the owner, the group, the extended attributes and the permissions of the old one. The permissions
/// come last: with a list, those of the group say what the list may give at most.
fn keep_access(new: &File, old: &File) -> io::Result<()> {
    let (own, wanted) = (new.metadata()?, old.metadata()?);
    let (user, group) = (wanted.uid(), wanted.gid());
    let not_kept = |error: io::Error| {
        let owner = format!("the file's owner and group ({user}, {group})");
        io::Error::new(error.kind(), format!("{owner} cannot be kept: {error}"))
    };
    if own.gid() != group {
        fchown(new, None, Some(group)).map_err(not_kept)?;
    }
    if own.uid() != user && !may_pass(old, wanted.mode())? {
        fchown(new, Some(user), None).map_err(not_kept)?;
    } else if own.uid() != user {
        // Where it cannot be given away, it is the writer's from now on.
        let _ = fchown(new, Some(user), None);
    }
    keep_attributes(new, old)?;
    new.set_permissions(wanted.permissions())
}

/// Whether a file may pass to another owner with its group: the group may do all that the owner may, and no access
/// control list says otherwise.
fn may_pass(old: &File, mode: u32) -> io::Result<bool> {
    let (owner, group) = (mode >> 6 & 7, mode >> 3 & 7);
    let listed = system::attributes(old)?.iter().any(|(name, _)| name.to_bytes() == b"system.posix_acl_access");
    Ok(owner & group == owner && !listed)
}

/// Those that the folder gave to the new file go, if the old file has not got them.
fn keep_attributes(new: &File, old: &File) -> io::Result<()> {
    let (given, wanted) = (system::attributes(new)?, system::attributes(old)?);
    let not_kept = |name: &std::ffi::CStr, error: io::Error| {
        io::Error::new(error.kind(), format!("the attribute {} cannot be kept: {error}", name.to_string_lossy()))
    };
    for (name, _) in given.iter().filter(|(name, _)| !wanted.iter().any(|(kept, _)| kept == name)) {
        system::remove_attribute(new, name).map_err(|error| not_kept(name, error))?;
    }
    for (name, value) in wanted.iter().filter(|attribute| !given.contains(attribute)) {
        system::set_attribute(new, name, value).map_err(|error| not_kept(name, error))?;
    }
    Ok(())
}

/// The folder of a file.
pub fn folder(path: &Path) -> &Path {
    match path.parent() {
        None => Path::new("/"),
        Some(folder) if folder.as_os_str().is_empty() => Path::new("."),
        Some(folder) => folder,
    }
}

/// Makes a new name last, and tidies its folder. Some file systems cannot sync a folder, and say so: that is no
/// failure.
fn saved(path: &Path, target: &Path) -> Result<(), Failure> {
    remove_leftovers(folder(target));
    match File::open(folder(target)).and_then(|folder| folder.sync_all()) {
        Err(error) if !matches!(error.kind(), ErrorKind::InvalidInput | ErrorKind::Unsupported) => Err(Failure::io(
            path,
            format!("saved, but a power cut could undo it: the folder cannot be synced: {error}"),
        )),
        _ => Ok(()),
    }
}

#[cfg(test)]
mod tests {
    use super::*;
    use crate::test_folder::TestFolder;
    use std::ffi::CString;
    use std::os::unix::fs::PermissionsExt;

    #[test]
    fn a_new_file_without_links() {
        let folder = TestFolder::new("no-links");
        let path = folder.path("s");
        let new = || NewFile::with_bytes(folder.root(), 0o666, &[0; 32]).unwrap();
        take_name(new(), &path).unwrap();
        assert_eq!((fs::read(&path).unwrap(), folder.names()), (vec![0; 32], vec!["s".to_string()]));
        fs::write(&path, "a file").unwrap();
        let failure = take_name(new(), &path).unwrap_err().to_string();
        assert!(failure.ends_with("/s: is there already, and stays as it is"), "{failure}");
        assert_eq!((fs::read(&path).unwrap(), folder.names()), (b"a file".to_vec(), vec!["s".to_string()]));
    }

    #[test]
    fn errors_that_mean_no_links() {
        for (number, expected) in [(EPERM, true), (95, true), (13, false), (17, false), (2, false)] {
            assert_eq!(no_links(&io::Error::from_raw_os_error(number)), expected, "{number}");
        }
    }

    /// An access control list as Linux keeps it: the owner may read and write, one more user too, the group nothing.
    fn access_list() -> Vec<u8> {
        let entries: [(u16, u16, u32); 5] =
            [(0x01, 6, u32::MAX), (0x02, 6, 1234), (0x04, 0, u32::MAX), (0x10, 6, u32::MAX), (0x20, 0, u32::MAX)];
        let mut bytes = 2_u32.to_le_bytes().to_vec();
        for (kind, rights, user) in entries {
            bytes.extend(kind.to_le_bytes().into_iter().chain(rights.to_le_bytes()).chain(user.to_le_bytes()));
        }
        bytes
    }

    type Attributes = Vec<(CString, Vec<u8>)>;

    /// Replaces a file that has an attribute, where the file system has such ones. Its attributes before and after.
    fn replaced_with(name: &str, value: &[u8]) -> Option<[Attributes; 2]> {
        let folder = TestFolder::new(name);
        let path = folder.path("s");
        fs::write(&path, "old").unwrap();
        system::set_attribute(&File::open(&path).unwrap(), &CString::new(name).unwrap(), value).ok()?;
        let mode = fs::metadata(&path).unwrap().permissions().mode();
        let old = LockedFile::open(&path, Saving::default()).unwrap();
        let before = system::attributes(&old.file).unwrap();
        replace(&path, &old, b"new").unwrap();
        assert_eq!(fs::read(&path).unwrap(), b"new");
        assert_eq!(fs::metadata(&path).unwrap().permissions().mode(), mode);
        Some([before, system::attributes(&File::open(&path).unwrap()).unwrap()])
    }

    #[test]
    fn extended_attributes_are_kept() {
        for (name, value) in [("user.office", b"north".to_vec()), ("system.posix_acl_access", access_list())] {
            match replaced_with(name, &value) {
                Some([before, after]) => {
                    assert!(before.iter().any(|(kept, bytes)| kept.to_bytes() == name.as_bytes() && *bytes == value));
                    assert_eq!(after, before);
                }
                None => eprintln!("not tested: this file system has no {name}"),
            }
        }
    }

    /// A list that the folder gives to new files is not the old file's.
    #[test]
    fn a_folder_s_own_list_is_not_taken_over() {
        let folder = TestFolder::new("default-list");
        let path = folder.path("s");
        fs::write(&path, "old").unwrap();
        let default = CString::new("system.posix_acl_default").unwrap();
        if system::set_attribute(&File::open(folder.root()).unwrap(), &default, &access_list()).is_err() {
            eprintln!("not tested: this file system has no access control lists");
            return;
        }
        let probe = folder.path("probe");
        fs::write(&probe, "").unwrap();
        assert_eq!(system::attributes(&File::open(&probe).unwrap()).unwrap().len(), 1);
        replace(&path, &LockedFile::open(&path, Saving::default()).unwrap(), b"new").unwrap();
        assert_eq!(system::attributes(&File::open(&path).unwrap()).unwrap(), []);
    }
}
