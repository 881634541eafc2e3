//! A store in a file. It is never written in place: a new file is written beside it and takes its name, so that a crash
//! leaves the old one or the new one. The file before stays as FILE~, and FILE.sum has the sums of both.

use crate::damage;
use crate::failure::Failure;
use crate::output::note;
use crate::sum::{self, beside, Sum};
use formstore::{check, Refusal, Store, LONGEST, LONGEST_TEXT};
use std::ffi::OsStr;
use std::fs::{self, File, Metadata, OpenOptions, TryLockError};
use std::io::{self, ErrorKind, Read, Write};
use std::os::unix::fs::{fchown, MetadataExt};
use std::path::{Path, PathBuf};

/// The store in a file, which is as boxform left it.
pub fn read(path: &Path) -> Result<Store, Failure> {
    as_left(path, look(path)?)
}

/// The store in a file that may differ from its sum.
pub fn look(path: &Path) -> Result<(Store, Sum), Failure> {
    let (bytes, sum) = read_summed(path).map_err(absent(path))?;
    Ok((passing(path, bytes)?, sum))
}

/// The store, if it fits its sum.
fn as_left(path: &Path, (store, sum): (Store, Sum)) -> Result<Store, Failure> {
    match sum {
        Sum::Differs => Err(Failure::Held(differs(path))),
        _ => Ok(store),
    }
}

/// Names the file of an error; where it is gone and the store before is not, that is said.
fn absent(path: &Path) -> impl Fn(io::Error) -> Failure + '_ {
    move |error| {
        let before = beside(path, "~");
        if error.kind() == ErrorKind::NotFound && before.exists() {
            let text = format!(
                "{error}; the store before, {}, is there and can be copied",
                before.display()
            );
            return Failure::of(path)(io::Error::new(error.kind(), text));
        }
        Failure::of(path)(error)
    }
}

pub fn differs(path: &Path) -> String {
    let name = path.display();
    format!(
        "{name} is not as boxform left it, by its sum in {name}.sum: bits have flipped, or another program wrote it. \
         Look at it with 'boxform show {name}'; 'boxform undo {name}' brings back the store before, \
         'boxform sum {name}' takes this one as it is"
    )
}

/// The store of these bytes, or why they are none.
pub fn passing(path: &Path, bytes: Vec<u8>) -> Result<Store, Failure> {
    if check(&bytes).is_ok() {
        return Ok(Store::from_bytes(bytes)?);
    }
    let mut reason = format!("{}: {}", path.display(), damage::reason(&bytes));
    let before = fs::read(beside(&real(path), "~")).unwrap_or_default();
    if check(&before).is_ok() {
        reason += &format!(
            "; 'boxform undo {}' brings back the store before",
            path.display()
        );
    }
    Err(Failure::Refused(Refusal::BadStore, reason))
}

/// The path without links. A pipe has none, and nothing beside it either.
fn real(path: &Path) -> PathBuf {
    fs::canonicalize(path).unwrap_or_else(|_| path.to_path_buf())
}

fn read_summed(path: &Path) -> io::Result<(Vec<u8>, Sum)> {
    let real = real(path);
    let both = || {
        let bytes = read_bytes(path)?;
        let sum = sum::compare(&real, &bytes)?;
        Ok((bytes, sum))
    };
    match both()? {
        (_, Sum::Differs) => {
            // A change may have come between the two readings. None comes while the folder is locked, if it can be.
            let _folder = locked(&real);
            both()
        }
        read => Ok(read),
    }
}

fn read_bytes(path: &Path) -> io::Result<Vec<u8>> {
    read_up_to(path, LONGEST)
}

/// One byte more than this at the most, so that a longer file is no store and no printed text.
fn read_up_to(path: &Path, most: usize) -> io::Result<Vec<u8>> {
    let mut bytes = Vec::new();
    let most = most as u64 + 1;
    File::open(path)?.take(most).read_to_end(&mut bytes)?;
    Ok(bytes)
}

/// The text in a file.
pub fn printed(path: &Path) -> Result<Vec<u8>, Failure> {
    read_up_to(path, LONGEST_TEXT).map_err(Failure::of(path))
}

/// The folder of a file, locked until it is closed, which the system does after a crash too.
fn locked(path: &Path) -> io::Result<File> {
    let name = path.parent().unwrap_or(Path::new("/"));
    let folder = File::open(name)?;
    match folder.try_lock() {
        Err(TryLockError::WouldBlock) => {
            note(&format!(
                "waiting for another boxform that works in {}",
                name.display()
            ));
            folder.lock()?;
        }
        Err(TryLockError::Error(error)) => return Err(error),
        Ok(()) => {}
    }
    Ok(folder)
}

/// The files that are written and then take their names. The folder is locked, so ones that are there were left behind
/// by a crash.
const NEW: &str = ".boxform-new";
const OLD: &str = ".boxform-old";
const SUMS: &str = ".boxform-sum";

/// The longest name of a file on most systems.
const LONGEST_NAME: usize = 255;

/// A file that no other boxform changes meanwhile.
pub struct Held {
    /// As it was given.
    name: PathBuf,
    path: PathBuf,
    folder: File,
}

impl Held {
    /// Holds a file that is there and may be written.
    pub fn of(name: &Path) -> Result<Held, Failure> {
        // Where the name is a link, the file behind it is replaced and not the link.
        let path = fs::canonicalize(name).map_err(absent(name))?;
        let held = Held::at(name, path)?;
        writable(&held.path).map_err(Failure::of(name))?;
        Ok(held)
    }

    fn at(name: &Path, path: PathBuf) -> Result<Held, Failure> {
        let length = path.file_name().map_or(0, OsStr::len);
        if length + sum::SUFFIX.len() > LONGEST_NAME {
            let most = LONGEST_NAME - sum::SUFFIX.len();
            let text = format!(
                "the name has {length} bytes; with {} behind it, at most {most} can be",
                sum::SUFFIX
            );
            return Err(Failure::File(name.to_path_buf(), io::Error::other(text)));
        }
        let folder = locked(&path).map_err(Failure::of(name))?;
        let name = name.to_path_buf();
        let held = Held { name, path, folder };
        held.clear();
        Ok(held)
    }

    /// Removes what was written and did not take its name.
    fn clear(&self) {
        for name in [NEW, OLD, SUMS] {
            let _ = fs::remove_file(self.path.with_file_name(name));
        }
    }

    pub fn read(&self) -> Result<Store, Failure> {
        let bytes = read_bytes(&self.path).map_err(Failure::of(&self.name))?;
        let sum = sum::compare(&self.path, &bytes).map_err(Failure::of(&self.name))?;
        as_left(&self.name, (passing(&self.name, bytes)?, sum))
    }

    /// The bytes of the file, whatever they are.
    pub fn bytes(&self) -> Result<Vec<u8>, Failure> {
        fs::read(&self.path).map_err(Failure::of(&self.name))
    }

    /// The store before the last change.
    pub fn before(&self) -> Result<Store, Failure> {
        let path = beside(&self.path, "~");
        let name = beside(&self.name, "~");
        if !path.exists() {
            let text = format!(
                "there is nothing to take back: {} is not there",
                name.display()
            );
            return Err(Failure::Held(text));
        }
        let bytes = read_bytes(&path).map_err(Failure::of(&name))?;
        if sum::compare(&self.path, &bytes).map_err(Failure::of(&name))? == Sum::Differs {
            let text = format!(
                "{} is not as boxform left it, by its sum in {}.sum; rename it, if you trust it",
                name.display(),
                self.name.display()
            );
            return Err(Failure::Held(text));
        }
        passing(&name, bytes)
    }

    /// Replaces the file, which had these bytes. The one before becomes FILE~.
    pub fn replace(&self, before: &[u8], after: &[u8]) -> Result<(), Failure> {
        let replaced = self
            .write_beside(before, after)
            .and_then(|()| self.take_name());
        if let Err(error) = replaced {
            let text = format!("{error}; the file is as it was");
            return Err(Failure::File(
                self.name.clone(),
                io::Error::new(error.kind(), text),
            ));
        }
        self.settle()
    }

    /// All that needs room on the disk is done here, before any file takes a name.
    fn write_beside(&self, before: &[u8], after: &[u8]) -> io::Result<()> {
        let like = fs::metadata(&self.path)?;
        if like.nlink() > 1 {
            note(&format!(
                "{} has other names (hard links), which keep the store as it was",
                self.name.display()
            ));
        }
        self.write(NEW, after, Some(&like))?;
        self.write(OLD, before, Some(&like))?;
        let old = beside(&self.path, "~");
        let sums = sum::text(&[(file_name(&self.path), after), (file_name(&old), before)]);
        self.write(SUMS, &sums, Some(&like))
    }

    /// FILE~ and the sums come first, so that at every moment the file's sum is among them.
    fn take_name(&self) -> io::Result<()> {
        self.rename(OLD, &beside(&self.path, "~"))?;
        self.rename(SUMS, &beside(&self.path, sum::SUFFIX))?;
        sync(&self.folder)?;
        self.rename(NEW, &self.path)
    }

    fn rename(&self, from: &str, to: &Path) -> io::Result<()> {
        let renamed = fs::rename(self.path.with_file_name(from), to);
        renamed.map_err(|error| {
            let text = format!("{}: {error}", file_name(to).display());
            io::Error::new(error.kind(), text)
        })
    }

    /// Brings the new names to the disk.
    fn settle(&self) -> Result<(), Failure> {
        sync(&self.folder).map_err(|error| {
            let text = format!("the new file is there, but may not be on the disk yet: {error}");
            Failure::File(self.name.clone(), io::Error::new(error.kind(), text))
        })
    }

    /// Writes a file and brings it to the disk, with the owner, group and mode of another.
    fn write(&self, name: &str, bytes: &[u8], like: Option<&Metadata>) -> io::Result<()> {
        let mut file = File::create_new(self.path.with_file_name(name))?;
        if let Some(like) = like {
            keep_owner(&file, like)?;
            file.set_permissions(like.permissions())?;
        }
        file.write_all(bytes)?;
        file.sync_all()
    }

    /// Writes the sums of the file as it is, and of the one before.
    pub fn sum(&self, bytes: &[u8]) -> Result<(), Failure> {
        let old = beside(&self.path, "~");
        let before = fs::read(&old);
        let mut files = vec![(file_name(&self.path), bytes)];
        if let Ok(before) = &before {
            files.push((file_name(&old), before));
        }
        let like = fs::metadata(&self.path).ok();
        let written = self.write(SUMS, &sum::text(&files), like.as_ref());
        let written = written.and_then(|()| self.rename(SUMS, &beside(&self.path, sum::SUFFIX)));
        written.map_err(Failure::of(&self.name))?;
        self.settle()
    }
}

/// Makes a file with the store. One that is there is never written over.
pub fn create(name: &Path, store: &Store) -> Result<(), Failure> {
    let fail = Failure::of(name);
    let folder = match name.parent() {
        Some(folder) if folder != Path::new("") => folder,
        _ => Path::new("."),
    };
    let folder = fs::canonicalize(folder).map_err(&fail)?;
    let held = Held::at(name, folder.join(file_name(name)))?;
    if fs::symlink_metadata(&held.path).is_ok() {
        let text = "the file is there already, and stays as it is";
        return Err(fail(io::Error::new(ErrorKind::AlreadyExists, text)));
    }
    held.write(NEW, store.as_bytes(), None).map_err(&fail)?;
    held.sum(store.as_bytes())?;
    held.link().map_err(&fail)?;
    held.settle()
}

/// The folder is still locked here.
impl Drop for Held {
    fn drop(&mut self) {
        self.clear();
    }
}

impl Held {
    /// Gives the new file its name, which no file has.
    fn link(&self) -> io::Result<()> {
        let linked = fs::hard_link(self.path.with_file_name(NEW), &self.path);
        match linked.as_ref().map_err(io::Error::kind) {
            // A link never takes the place of a file. Some disks have none, and then the name was free a moment ago.
            Err(ErrorKind::PermissionDenied | ErrorKind::Unsupported) => {
                self.rename(NEW, &self.path)
            }
            _ => linked,
        }
    }
}

fn file_name(path: &Path) -> &OsStr {
    path.file_name().unwrap_or_default()
}

/// Root may write any file; one that nobody may write is kept from root too.
fn writable(path: &Path) -> io::Result<()> {
    let found = fs::metadata(path)?;
    if !found.is_file() {
        return Err(io::Error::other("this is no file with a store"));
    }
    if found.permissions().readonly() {
        return Err(io::Error::new(
            ErrorKind::PermissionDenied,
            "the file is read-only, so it stays as it is; chmod u+w lets it be changed",
        ));
    }
    OpenOptions::new().write(true).open(path).map(drop)
}

fn keep_owner(file: &File, like: &Metadata) -> io::Result<()> {
    let now = file.metadata()?;
    if (now.uid(), now.gid()) == (like.uid(), like.gid()) {
        return Ok(());
    }
    fchown(file, Some(like.uid()), Some(like.gid())).map_err(|error| {
        let text = format!(
            "the new file could not be given to the owner and group of the old one: {error}; let its owner change it, \
             or work on a copy"
        );
        io::Error::new(error.kind(), text)
    })
}

/// Some disks cannot bring a folder to the disk by itself; they do it in time.
fn sync(folder: &File) -> io::Result<()> {
    match folder.sync_all() {
        Err(error)
            if matches!(
                error.kind(),
                ErrorKind::InvalidInput | ErrorKind::Unsupported
            ) =>
        {
            Ok(())
        }
        synced => synced,
    }
}
