//! A file that one command at a time can write.
//!
//! A command that can write holds an exclusive lock (`File::lock`) on the file itself from before it reads until it has
//! renamed. A waiting command then holds the lock of a file that has been replaced: it compares the file that it locked
//! with the one that the path names now, and begins anew where they differ. So no update is lost, and no lock file is
//! left. A command that only reads needs no lock, since the file that it has opened is never written again. Two files
//! are locked in the order of their paths, so that no two commands wait for each other.

use crate::changes::DRY_RUN;
use crate::failure::Failure;
use crate::output::{complain, Output};
use crate::text::shown_path;
use std::fs::{self, File, Metadata, OpenOptions, TryLockError};
use std::io::{self, ErrorKind};
use std::os::unix::fs::MetadataExt;
use std::path::{Path, PathBuf};
use std::sync::mpsc::{self, RecvTimeoutError};
use std::thread;
use std::time::{Duration, Instant};

/// How long a command waits for the lock; without a limit for ever.
pub type Patience = Option<Duration>;

/// How a file is saved.
#[derive(Clone, Copy, Debug, Default, PartialEq, Eq)]
pub struct Saving {
    pub patience: Patience,
    /// Nothing is saved, and nothing is locked.
    pub dry_run: bool,
}

/// Waiting that takes longer is told.
const SHORT: Duration = Duration::from_secs(1);

impl Saving {
    /// Whether something is saved; of a dry run it is told that nothing is.
    pub fn saves(self, output: &mut Output) -> bool {
        if self.dry_run {
            output.print(DRY_RUN);
        }
        !self.dry_run
    }
}

pub struct LockedFile {
    /// Open, and locked until it is closed; in a dry run only open.
    pub file: File,
    /// Where it is, with no symbolic link in it.
    pub target: PathBuf,
}

impl LockedFile {
    /// Waits for the lock. Opening the file for writing, though it is not written, has a read-only file refused.
    pub fn open(path: &Path, saving: Saving) -> io::Result<LockedFile> {
        let mut waiting = Waiting { path, begin: Instant::now(), patience: saving.patience, told: false };
        loop {
            let target = fs::canonicalize(path)?;
            let file = open_regular(&target, OpenOptions::new().read(true).write(true))?;
            if saving.dry_run {
                return Ok(LockedFile { file, target });
            }
            waiting.lock(&file)?;
            if names_file(&target, &file)? {
                return Ok(LockedFile { file, target });
            }
        }
    }

    /// Two files, whichever is named first. One file by two names is refused: its second lock would wait for its first.
    pub fn open_both(first: &Path, second: &Path, saving: Saving) -> Result<[LockedFile; 2], Failure> {
        let open = |path| LockedFile::open(path, saving).map_err(|error| Failure::io(path, error));
        let found = |path| -> Result<_, Failure> {
            let named = fs::canonicalize(path).and_then(|target| Ok((fs::metadata(path)?, target)));
            let (about, target) = named.map_err(|error| Failure::io(path, error))?;
            Ok(((about.dev(), about.ino()), target))
        };
        let ((one, front), (other, behind)) = (found(first)?, found(second)?);
        if one == other {
            return Err(Failure::io(second, format!("is the same file as {}", shown_path(first))));
        }
        if front < behind {
            Ok([open(first)?, open(second)?])
        } else {
            let second = open(second)?;
            Ok([open(first)?, second])
        }
    }
}

/// The wait for one file, which may be replaced several times meanwhile.
struct Waiting<'a> {
    path: &'a Path,
    begin: Instant,
    patience: Patience,
    told: bool,
}

impl Waiting<'_> {
    fn lock(&mut self, file: &File) -> io::Result<()> {
        match file.try_lock() {
            Err(TryLockError::WouldBlock) => {}
            Err(TryLockError::Error(error)) if error.kind() == ErrorKind::Interrupted => {}
            Err(TryLockError::Error(error)) => return Err(error),
            Ok(()) => return Ok(()),
        }
        // A thread waits in line; it shares the lock, and ends with the program where the patience does.
        let (sender, receiver) = mpsc::channel();
        let shared = file.try_clone()?;
        thread::spawn(move || sender.send(lock(&shared)));
        loop {
            let answer = match self.pause()? {
                Some(pause) => receiver.recv_timeout(pause),
                None => receiver.recv().map_err(RecvTimeoutError::from),
            };
            match answer {
                Ok(locked) => return locked,
                Err(RecvTimeoutError::Disconnected) => return Err(ErrorKind::BrokenPipe.into()),
                Err(RecvTimeoutError::Timeout) => self.tell(),
            }
        }
    }

    /// How long to wait before there is something to say or to do; for ever where there is nothing.
    fn pause(&self) -> io::Result<Option<Duration>> {
        let waited = self.begin.elapsed();
        match self.patience {
            Some(patience) if waited >= patience => Err(io::Error::new(
                ErrorKind::TimedOut,
                format!("another command has it, and {} s of waiting are over; nothing was saved", patience.as_secs()),
            )),
            Some(patience) if self.told => Ok(Some(patience - waited)),
            Some(patience) => Ok(Some((patience - waited).min(SHORT.saturating_sub(waited)))),
            None if self.told => Ok(None),
            None => Ok(Some(SHORT.saturating_sub(waited))),
        }
    }

    fn tell(&mut self) {
        if !self.told && self.begin.elapsed() >= SHORT {
            self.told = true;
            let name = shown_path(self.path);
            complain(&format!("ostrubel: {name}: waiting for another command that has it; --wait SECONDS gives up"));
        }
    }
}

/// Waits for the lock as long as it takes.
pub fn lock(file: &File) -> io::Result<()> {
    loop {
        match file.lock() {
            Err(error) if error.kind() == ErrorKind::Interrupted => {}
            result => return result,
        }
    }
}

/// Whether the path still names the open file.
pub fn names_file(path: &Path, file: &File) -> io::Result<bool> {
    let named = match fs::metadata(path) {
        Err(error) if error.kind() == ErrorKind::NotFound => return Ok(false),
        named => named?,
    };
    let open = file.metadata()?;
    Ok((named.dev(), named.ino()) == (open.dev(), open.ino()))
}

/// Opens a file, but neither a folder nor a pipe, where opening would wait for another program.
pub fn open_regular(path: &Path, options: &OpenOptions) -> io::Result<File> {
    check_regular(&fs::metadata(path)?)?;
    let file = options.open(path)?;
    check_regular(&file.metadata()?)?;
    Ok(file)
}

fn check_regular(about: &Metadata) -> io::Result<()> {
    if about.is_file() {
        Ok(())
    } else {
        Err(io::Error::new(ErrorKind::InvalidInput, "is not a file that can hold a shelf"))
    }
}
