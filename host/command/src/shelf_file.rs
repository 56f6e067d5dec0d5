//! A store kept in a file: its words within a guard (`guard`), saved as `replacing` says, by one command at a time
//! (`locked_file`).
//!
//! Files of before there was a guard have the words alone, and those of before sheets had revisions have words of an
//! earlier version (`form`). They are read, but not written: `convert` gives them today's form.

use crate::failure::Failure;
use crate::form::{self, Sheets};
use crate::guard::{self, Damage, Guarded};
use crate::locked_file::{open_regular, LockedFile, Saving};
use crate::names::{IndexList, Whole};
use crate::refusal::Refusal;
use crate::replacing::{self, folder, no_folder, read_at_most};
use crate::text::quoted;
use ostrubel::{Error, Store, MAX_STORE_WORDS, SLOTS};
use std::fs::OpenOptions;
use std::io::{self, ErrorKind};
use std::path::Path;

const WORD_BYTES: usize = 4;

/// The longest file.
pub const MAX_BYTES: usize = guard::GUARD_BYTES + MAX_STORE_WORDS * WORD_BYTES;

/// What a file is.
#[derive(Clone, Copy, Debug, PartialEq, Eq)]
pub enum Form {
    /// As it is written now.
    Current,
    /// Of an earlier ostrubel: without a guard, or with words of an earlier version.
    Earlier,
}

/// A new store in a new file, which is there whole or not at all. What is there already stays as it is.
pub fn create(path: &Path, words: &Whole, dry_run: bool) -> Result<(), Failure> {
    let store = Store::new(words.size()).map_err(|error| Refusal::of_length(error, words))?;
    if dry_run {
        return replacing::check_free(path);
    }
    replacing::create(path, &bytes_of(&store))
}

fn not_opened(path: &Path, error: &io::Error) -> Failure {
    if error.kind() != ErrorKind::NotFound {
        Failure::io(path, error)
    } else if path.is_symlink() {
        Failure::io(path, "this link leads to no file")
    } else if !folder(path).exists() {
        no_folder(path)
    } else {
        let name = quoted(path);
        Failure::io(path, format!("there is no such file; make a shelf with: ostrubel new {name} 1000"))
    }
}

/// The store in a file, in whatever form.
pub fn read(path: &Path) -> Result<Store, Failure> {
    read_contents(path)?.store(path)
}

fn read_contents(path: &Path) -> Result<Contents, Failure> {
    let file = open_regular(path, OpenOptions::new().read(true));
    let bytes = file.and_then(|file| read_at_most(file, MAX_BYTES)).map_err(|error| not_opened(path, &error))?;
    contents_of(path, &bytes)
}

/// Lends the store in a file to some work, and saves it where the work succeeds and has changed a word. Whether it did.
pub fn update(
    path: &Path,
    saving: Saving,
    work: impl FnOnce(&mut Store) -> Result<(), Failure>,
) -> Result<bool, Failure> {
    rewrite(path, saving, |form, store| {
        check_current(path, form)?;
        work(store)
    })
}

/// Gives a file its guard. The form that it had.
pub fn convert(path: &Path, saving: Saving) -> Result<Form, Failure> {
    let mut before = Form::Current;
    rewrite(path, saving, |form, _| {
        before = form;
        Ok(())
    })?;
    Ok(before)
}

/// Puts the sheets of a file, or those of some places, into a new file, with its guard. The form that the file has,
/// which stays as it is.
pub fn convert_to(path: &Path, places: Option<&IndexList>, to: &Path, dry_run: bool) -> Result<Form, Failure> {
    let contents = read_contents(path)?;
    let listed = match places {
        Some(IndexList::Listed(places)) => Some(places),
        Some(IndexList::All) | None => None,
    };
    if let Some(place) = listed.into_iter().flatten().find(|place| place.size() >= SLOTS) {
        return Err(Refusal::of_place(place).into());
    }
    let is_chosen = |slot| listed.is_none_or(|places| places.iter().any(|place| place.size() == slot));
    let sheets: Sheets = std::array::from_fn(|slot| contents.sheets[slot].clone().filter(|_| is_chosen(slot)));
    let chosen = Contents { sheets, ..contents };
    let store = chosen.store(path)?;
    if dry_run {
        replacing::check_free(to)?;
    } else {
        replacing::create(to, &bytes_of(&store))?;
    }
    Ok(chosen.form)
}

/// A store of so many words with the sheets of another.
pub fn resized(store: &Store, words: &Whole) -> Result<Store, Refusal> {
    form::store(words.size(), &form::sheets(store)).map_err(|error| match error {
        Error::InsufficientSpace => {
            let used = store.used_words();
            Refusal::of(
                error,
                format!("{used} words are used, and do not fit {words}: drop a sheet, or take more words."),
            )
        }
        _ => Refusal::of_length(error, words),
    })
}

fn rewrite(
    path: &Path,
    saving: Saving,
    work: impl FnOnce(Form, &mut Store) -> Result<(), Failure>,
) -> Result<bool, Failure> {
    let locked = LockedFile::open(path, saving).map_err(|error| not_opened(path, &error))?;
    let before = read_at_most(&locked.file, MAX_BYTES).map_err(|error| Failure::io(path, error))?;
    let (form, mut store) = store_of(path, &before)?;
    work(form, &mut store)?;
    let after = bytes_of(&store);
    if after == before || saving.dry_run {
        return Ok(false);
    }
    replacing::replace(path, &locked, &after)?;
    Ok(true)
}

fn check_current(path: &Path, form: Form) -> Result<(), Failure> {
    if form == Form::Current {
        return Ok(());
    }
    let convert = format!("ostrubel convert {}", quoted(path));
    let reason = "this shelf has an earlier form, which is read but not written; nothing was saved";
    Err(Failure::io(path, format!("{reason}. Convert it once, and nothing of it is lost: {convert}")))
}

fn bytes_of(store: &Store) -> Vec<u8> {
    guard::enclose(form::VERSION, store.words())
}

/// What is in a file.
struct Contents {
    form: Form,
    /// The number of the shelf's words.
    words: usize,
    sheets: Sheets,
}

impl Contents {
    /// A store with the sheets. Those of an earlier form can be longer now.
    fn store(&self, path: &Path) -> Result<Store, Failure> {
        let store = form::grown_store(self.words, &self.sheets);
        Ok(store.map_err(|error| Refusal::of_full_shelf(error, &quoted(path)))?)
    }
}

fn contents_of(path: &Path, bytes: &[u8]) -> Result<Contents, Failure> {
    let (is_guarded, version, words) = match guard::open(bytes) {
        Guarded::Sound { version, words } => (true, version, words),
        Guarded::Bare { words } => (false, form::VERSION, words),
        Guarded::Damaged(Damage::NoWords) => return Err(Refusal::of_file(path, bytes.len()).into()),
        Guarded::Damaged(damage) => return Err(Refusal::of_damage(path, damage, bytes.len()).into()),
    };
    if version > form::VERSION {
        return Err(Refusal::of_version(path, version).into());
    }
    let count = words.len();
    // Bare words say their form by themselves.
    let current = || (version == form::VERSION).then(|| Store::from_words(words.clone()).ok()).flatten();
    let earlier =
        || (!is_guarded || version == form::WITHOUT_REVISIONS).then(|| form::earlier_sheets(&words)).flatten();
    let (is_current, sheets) = match current() {
        Some(store) => (is_guarded, form::sheets(&store)),
        None => (false, earlier().ok_or_else(|| Refusal::of_file(path, bytes.len()))?),
    };
    Ok(Contents { form: if is_current { Form::Current } else { Form::Earlier }, words: count, sheets })
}

fn store_of(path: &Path, bytes: &[u8]) -> Result<(Form, Store), Failure> {
    let contents = contents_of(path, bytes)?;
    Ok((contents.form, contents.store(path)?))
}

#[cfg(test)]
mod tests {
    use super::*;
    use crate::test_folder::TestFolder;
    use std::fs;

    /// A program that does not lock replaces or removes the file while a command works on it.
    #[test]
    fn a_file_that_is_replaced_meanwhile_stays() {
        let folder = TestFolder::new("replaced");
        let (path, other) = (folder.path("s"), folder.path("other"));
        create(&path, &Whole::parse("100").unwrap(), false).unwrap();
        let sound = fs::read(&path).unwrap();
        for replaced in [true, false] {
            let failure = update(&path, Saving::default(), |store| {
                if replaced {
                    fs::write(&other, "another file").unwrap();
                    fs::rename(&other, &path).unwrap();
                } else {
                    fs::remove_file(&path).unwrap();
                }
                store.new_empty(0, 2, 2).unwrap();
                Ok(())
            });
            let failure = failure.unwrap_err();
            assert_eq!(failure.exit_status(), 3);
            assert!(failure.to_string().contains("/s: was replaced meanwhile"), "{failure}");
            if replaced {
                assert_eq!(fs::read(&path).unwrap(), b"another file");
                assert_eq!(folder.names(), ["s"]);
                fs::write(&path, &sound).unwrap();
            }
        }
        assert_eq!(folder.names(), Vec::<String>::new());
    }
}
