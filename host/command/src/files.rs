//! Files as a command names them: `-` is standard input or output. No file is written over unasked,
//! and none that is read.

use std::ffi::OsString;
use std::fmt;
use std::fs::{self, File, Metadata, Permissions};
use std::io::{self, Write};
use std::os::fd::AsFd;
use std::os::unix::ffi::{OsStrExt, OsStringExt};
use std::os::unix::fs::{fchown, FileTypeExt, MetadataExt, OpenOptionsExt, PermissionsExt};
use std::path::{Path, PathBuf};
use std::process;
use std::sync::mpsc::{self, RecvTimeoutError, Sender};
use std::sync::{Arc, Mutex, MutexGuard, PoisonError};
use std::thread::{self, JoinHandle};
use std::time::Duration;

use crate::error::{Error, Result};
pub use crate::names::Name;
use crate::progress::say;

/// How long bytes that were written may stay off the disk, where that is cared for.
const UNSYNCED: Duration = Duration::from_secs(2);

/// A file to read.
pub struct Input {
    pub file: File,
    pub name: Name,
    /// Its length, where it has one.
    pub length: Option<u64>,
    /// What tells it from every other file, where it can be written over.
    pub id: Option<Id>,
}

/// A file itself, whatever names lead to it: device and inode, or the number of a disk.
#[derive(Clone, Copy, Debug, PartialEq, Eq)]
pub enum Id {
    File { device: u64, inode: u64 },
    Disk(u64),
}

impl Id {
    /// None for what can be read and written at once, as pipes and terminals can.
    fn of(about: &Metadata) -> Option<Id> {
        let kind = about.file_type();
        if kind.is_file() {
            return Some(Id::File { device: about.dev(), inode: about.ino() });
        }
        kind.is_block_device().then(|| Id::Disk(about.rdev()))
    }

    /// The file that an input's path leads to.
    pub fn of_path(path: &Path) -> Option<Id> {
        let about = match is_standard_input(path) {
            true => standard(io::stdin()).and_then(|file| file.metadata()),
            false => fs::metadata(path),
        };
        about.ok().and_then(|about| Id::of(&about))
    }
}

/// Standard input or output as it was inherited, with its place and its mode.
fn standard(which: impl AsFd) -> io::Result<File> {
    which.as_fd().try_clone_to_owned().map(File::from)
}

fn is_standard_input(path: &Path) -> bool {
    is_standard(path, 0, "/dev/stdin")
}

fn is_standard_output(path: &Path) -> bool {
    is_standard(path, 1, "/dev/stdout")
}

/// Whether a path is one of the names that an inherited file has. Opened by such a name a file would
/// be another opening of it, at its begin and not set to append.
fn is_standard(path: &Path, number: u32, name: &str) -> bool {
    let names = ["-".into(), name.into(), format!("/dev/fd/{number}")];
    let own = [process::id().to_string(), "self".into(), "thread-self".into()];
    let own = own.map(|process| format!("/proc/{process}/fd/{number}"));
    names.iter().chain(&own).any(|name| path.as_os_str() == &name[..])
}

impl Input {
    pub fn open(path: &Path) -> Result<Input> {
        let name = Name::of(path, "standard input");
        let file = match is_standard_input(path) {
            true => standard(io::stdin()),
            false => File::open(path),
        };
        let file = file.map_err(|error| Error::reading(&name, error))?;
        let about = file.metadata().map_err(|error| Error::reading(&name, error))?;
        if about.is_dir() {
            return Error::sentence(format!("{name} is a folder, not a file"));
        }
        let length = about.is_file().then_some(about.len());
        Ok(Input { file, name, length, id: Id::of(&about) })
    }
}

/// What happens to a result's file that is there already.
#[derive(Clone, Copy, Debug, Default, PartialEq, Eq)]
pub enum Replace {
    /// It stays, and the result is refused.
    #[default]
    Never,
    /// `--force`: the result takes its name, mode and group, once it is whole.
    Force,
    /// `--in-place`: its bytes go first, so that there needn't be room for both.
    InPlace,
}

/// How a result is written where no file is there.
#[derive(Clone, Copy, Debug, PartialEq, Eq)]
pub enum Way {
    /// Under its own name from the begin.
    Straight,
    /// Under a name beside it until it is whole.
    ByPart,
}

/// Where a result goes: it may go there, and nothing is touched yet.
pub struct Target {
    name: Name,
    at: At,
}

enum At {
    Standard,
    /// A device or a pipe.
    Device(PathBuf),
    /// Nothing is there.
    Free(PathBuf),
    /// A file that is to be replaced by a new one, and what is known of it.
    Old(PathBuf, Box<Metadata>),
    /// A file whose bytes are to be replaced.
    InPlace(PathBuf),
}

impl Target {
    /// Finds out whether a result may go to a path. `read` are the files that the command reads.
    pub fn find(path: &Path, read: &[Option<Id>], replace: Replace) -> Result<Target> {
        let standing = is_standard_output(path);
        let name = Name::of(path, "standard output");
        let failed = |error| Error::writing(&name, error);
        let about = match standing {
            true => standard(io::stdout()).and_then(|file| file.metadata()),
            false => fs::metadata(path),
        };
        let about = match about {
            Err(error) if error.kind() == io::ErrorKind::NotFound => {
                let path = behind_links(path).map_err(failed)?;
                let folder = fs::metadata(folder_of(&path));
                if folder.is_err_and(|error| error.kind() == io::ErrorKind::NotFound) {
                    return Err(no_folder(&name));
                }
                return Ok(Target { name, at: At::Free(path) });
            }
            about => about.map_err(failed)?,
        };
        if Id::of(&about).is_some_and(|id| read.contains(&Some(id))) {
            return Error::sentence(format!("{name} is an input and the output at once"));
        }
        let kind = about.file_type();
        let at = match replace {
            _ if standing => At::Standard,
            _ if kind.is_dir() => {
                return Error::sentence(format!("{name} can't be written: it is a folder"));
            }
            _ if !kind.is_file() => At::Device(path.into()),
            Replace::Never => return Err(exists(&name)),
            Replace::Force => {
                // A link is followed: its target is what is replaced.
                let is_link = fs::symlink_metadata(path).is_ok_and(|about| about.is_symlink());
                let path = if is_link { fs::canonicalize(path) } else { Ok(path.into()) };
                At::Old(path.map_err(failed)?, Box::new(about))
            }
            Replace::InPlace if about.mode() & 0o222 == 0 => {
                return Error::sentence(format!(
                    "{name} is read-only; --force replaces it, --in-place does not"
                ));
            }
            Replace::InPlace => At::InPlace(path.into()),
        };
        Ok(Target { name, at })
    }

    /// Begins the file.
    pub fn open(self, way: Way) -> Result<Output> {
        let Target { name, at } = self;
        let failed = |error| Error::writing(&name, error);
        let (file, standing) = match at {
            At::Standard => (standard(io::stdout()).map_err(failed)?, Standing::Stream),
            At::Device(path) => {
                let file = File::options().write(true).open(path).map_err(failed)?;
                (file, Standing::Stream)
            }
            At::Free(path) if way == Way::Straight => match create(&path, 0o666) {
                Ok(file) => {
                    sync_folder(&path);
                    (file, Standing::Straight { path, emptied: true })
                }
                Err(error) => {
                    return Err(match error.kind() {
                        io::ErrorKind::AlreadyExists => exists(&name),
                        io::ErrorKind::NotFound => no_folder(&name),
                        _ => failed(error),
                    })
                }
            },
            At::Free(last) => {
                let (file, path) = create_part(&last, 0o666).map_err(failed)?;
                (file, Standing::Part { path, last, replaces: false })
            }
            At::Old(last, old) => {
                let (file, path) = create_part(&last, 0o600).map_err(failed)?;
                // Taken away from here on if it can't be made like the old one.
                let standing = Standing::Part { path, last, replaces: true };
                let output = Output::new(file, name, standing);
                take_over(&output, &old)?;
                return Ok(output);
            }
            At::InPlace(path) => {
                let file = File::options().write(true).open(&path).map_err(failed)?;
                say(format!(
                    "note: {name} is replaced in place: if the work fails, the old one is gone"
                ));
                (file, Standing::Straight { path, emptied: false })
            }
        };
        Ok(Output::new(file, name, standing))
    }
}

/// The folder that a path's last name stands in.
fn folder_of(path: &Path) -> &Path {
    match path.parent() {
        Some(folder) if folder.as_os_str().is_empty() => Path::new("."),
        Some(folder) => folder,
        None => path,
    }
}

/// Where a path leads at whose end nothing is: what its links name, if it is one.
fn behind_links(path: &Path) -> io::Result<PathBuf> {
    let mut path = path.to_path_buf();
    while fs::symlink_metadata(&path).is_ok_and(|about| about.is_symlink()) {
        // Links in a ring were an error before.
        path = folder_of(&path).join(fs::read_link(&path)?);
    }
    Ok(path)
}

fn exists(name: &Name) -> Error {
    Error::Sentence(format!("{name} exists; --force replaces it"))
}

fn no_folder(name: &Name) -> Error {
    Error::Sentence(format!("{name} can't be written: its folder isn't there"))
}

/// A file that wasn't there, with this mode at most.
fn create(path: &Path, mode: u32) -> io::Result<File> {
    File::options().write(true).create_new(true).mode(mode).open(path)
}

/// Brings a folder's names onto the disk. Not every file system can, and then there is no more to
/// be done.
fn sync_folder(path: &Path) {
    let _ = File::open(folder_of(path)).and_then(|folder| folder.sync_all());
}

/// The files that have no final name yet, for whoever has to take them away when the program ends
/// in the midst of its work.
static UNFINISHED: Mutex<Vec<PathBuf>> = Mutex::new(Vec::new());

fn unfinished() -> MutexGuard<'static, Vec<PathBuf>> {
    UNFINISHED.lock().unwrap_or_else(PoisonError::into_inner)
}

/// Takes away every file that has no final name yet, and lets no other be begun or finished: the
/// program is at its end.
pub fn abandon(end: impl FnOnce()) {
    let unfinished = unfinished();
    for path in unfinished.iter() {
        let _ = fs::remove_file(path);
    }
    end();
}

/// A file beside another, with a name that nothing has, not even what a killed run left: the other
/// one's, cut where it is too long, with `.NUMBER.part` behind it.
fn create_part(last: &Path, mode: u32) -> io::Result<(File, PathBuf)> {
    const LONGEST: usize = 255;
    let mut number = process::id();
    let mut unfinished = unfinished();
    loop {
        let behind = format!(".{number}.part");
        let name = last.file_name().unwrap_or_default().as_bytes();
        let mut end = name.len().min(LONGEST - behind.len());
        // Not within a character.
        while end > 0 && end < name.len() && name[end] & 0xC0 == 0x80 {
            end -= 1;
        }
        let name = OsString::from_vec([&name[..end], behind.as_bytes()].concat());
        let path = last.with_file_name(name);
        match create(&path, mode) {
            Err(error) if error.kind() == io::ErrorKind::AlreadyExists => {
                number = number.wrapping_add(1);
            }
            file => {
                let file = file?;
                unfinished.push(path.clone());
                return Ok((file, path));
            }
        }
    }
}

/// Gives a new file the mode and the group of the one that it will replace, and the owner where that
/// is permitted. A group that can't be given is said, and then gets no more than anybody.
fn take_over(output: &Output, old: &Metadata) -> Result<()> {
    let Output { file, name, .. } = output;
    let mut mode = old.mode() & 0o7777;
    if fchown(file, Some(old.uid()), Some(old.gid())).is_err() {
        mode &= !0o4000;
        if fchown(file, None, Some(old.gid())).is_err() {
            mode &= !0o2000 & (!0o070 | mode << 3);
            say(format!("note: {name} can't keep its group, {}", old.gid()));
        }
    }
    let set = file.set_permissions(Permissions::from_mode(mode));
    set.map_err(|error| Error::writing(name, error))
}

/// A file to write. One that is never finished is taken away again.
pub struct Output {
    file: File,
    pub name: Name,
    standing: Standing,
    /// Whether it is a file on a disk, and not a pipe or a device.
    regular: bool,
    syncing: Option<Syncing>,
}

enum Standing {
    /// It is written as it stands: standard output, a device or a pipe.
    Stream,
    /// It has its name. Emptied: its old bytes are gone, or there were none.
    Straight { path: PathBuf, emptied: bool },
    /// It gets its last name when it is finished.
    Part { path: PathBuf, last: PathBuf, replaces: bool },
    /// Nothing is to be done any more.
    Done,
}

impl Output {
    /// Begins a file. `read` are the files that the command reads: none of them is written over.
    pub fn create(path: &Path, read: &[Option<Id>], replace: Replace, way: Way) -> Result<Output> {
        Target::find(path, read, replace)?.open(way)
    }

    fn new(file: File, name: Name, standing: Standing) -> Output {
        let regular = file.metadata().is_ok_and(|about| about.is_file());
        Output { file, name, standing, regular, syncing: None }
    }

    /// The name that it has until it is finished, where that is another one.
    pub fn unfinished(&self) -> Option<Name> {
        match &self.standing {
            Standing::Part { path, .. } => Some(Name::of(path, "")),
            _ => None,
        }
    }

    /// From now on what was written is brought onto the disk every two seconds, beside the work.
    pub fn sync_while_writing(&mut self) -> Result<()> {
        if self.regular {
            let file = self.file.try_clone();
            let file = file.map_err(|error| Error::writing(&self.name, error))?;
            self.syncing = Some(Syncing::begin(file));
        }
        Ok(())
    }

    pub fn write(&mut self, bytes: &[u8]) -> Result<()> {
        let synced = self.syncing.as_ref().map_or(Ok(()), Syncing::answer);
        let written = synced.and_then(|()| self.empty()).and_then(|()| self.file.write_all(bytes));
        written.map_err(|error| Error::writing(&self.name, error))
    }

    /// Empties a file that is replaced in place, once, when there is something to write.
    fn empty(&mut self) -> io::Result<()> {
        if let Standing::Straight { emptied: emptied @ false, .. } = &mut self.standing {
            self.file.set_len(0)?;
            *emptied = true;
        }
        Ok(())
    }

    /// Gives the file its final name, once its bytes are on the disk.
    pub fn finish(mut self) -> Result<()> {
        let finished = self.empty().and_then(|()| self.sync()).and_then(|()| self.name_it());
        finished.map_err(|error| self.failed(error))?;
        self.standing = Standing::Done;
        Ok(())
    }

    /// The same for a recording, of which only so many bytes are whole pictures: what is behind them
    /// goes, and what is before them stays whatever fails from here on.
    pub fn keep(mut self, bytes: u64) -> Result<()> {
        if !matches!(self.standing, Standing::Stream) {
            // Where this fails, a part of a picture is left behind the whole ones, and read as that.
            if self.file.metadata().is_ok_and(|about| about.len() > bytes) {
                let _ = self.file.set_len(bytes);
            }
        }
        let kept = self.sync().and_then(|()| self.name_it());
        let kept = kept.map_err(|error| match self.unfinished() {
            Some(part) => self.failed(error).and(format!("; what was recorded is {part}")),
            None => self.failed(error),
        });
        self.standing = Standing::Done;
        kept
    }

    fn failed(&self, error: io::Error) -> Error {
        match error.kind() {
            io::ErrorKind::AlreadyExists => exists(&self.name),
            _ => Error::writing(&self.name, error),
        }
    }

    /// Brings all bytes onto the disk.
    fn sync(&mut self) -> io::Result<()> {
        if let Some(syncing) = self.syncing.take() {
            syncing.end()?;
        }
        match self.regular {
            true => self.file.sync_all(),
            false => Ok(()),
        }
    }

    /// Gives a part its last name. A file that came to be there meanwhile stays, unless it is to be
    /// replaced: a hard link is never made over a file.
    fn name_it(&mut self) -> io::Result<()> {
        let Standing::Part { path, last, replaces } = &self.standing else { return Ok(()) };
        let mut unfinished = unfinished();
        match replaces {
            true => fs::rename(path, last)?,
            false => match fs::hard_link(path, last) {
                Ok(()) => fs::remove_file(path)?,
                Err(error) if error.kind() == io::ErrorKind::AlreadyExists => return Err(error),
                // Not every file system has hard links.
                Err(_) if fs::symlink_metadata(last).is_ok() => {
                    return Err(io::ErrorKind::AlreadyExists.into())
                }
                Err(_) => fs::rename(path, last)?,
            },
        }
        unfinished.retain(|other| other != path);
        sync_folder(last);
        Ok(())
    }
}

impl Drop for Output {
    /// What was made and not finished is taken away, and so is what stands in an old file's place.
    fn drop(&mut self) {
        if let Some(syncing) = self.syncing.take() {
            let _ = syncing.end();
        }
        match &self.standing {
            // Not if another file has got its name meanwhile.
            Standing::Straight { path, emptied: true } => {
                let own = self.file.metadata().ok().and_then(|about| Id::of(&about));
                if own.is_some() && own == Id::of_path(path) {
                    let _ = fs::remove_file(path);
                }
            }
            Standing::Part { path, .. } => {
                let mut unfinished = unfinished();
                let _ = fs::remove_file(path);
                unfinished.retain(|other| other != path);
            }
            Standing::Straight { .. } | Standing::Stream | Standing::Done => {}
        }
    }
}

/// A thread that brings a file's bytes onto the disk now and then, so that a power cut costs seconds.
struct Syncing {
    /// Never sent on: the thread ends when it is dropped.
    goes_on: Sender<()>,
    thread: JoinHandle<()>,
    /// What went wrong. The system says it once for all who have the file open, so it is kept here.
    error: Arc<Mutex<Option<io::Error>>>,
}

impl Syncing {
    fn begin(file: File) -> Syncing {
        let (goes_on, ends) = mpsc::channel();
        let error = Arc::new(Mutex::new(None));
        let told = error.clone();
        let thread = thread::spawn(move || {
            while ends.recv_timeout(UNSYNCED) == Err(RecvTimeoutError::Timeout) {
                if let Err(error) = file.sync_data() {
                    *told.lock().unwrap_or_else(PoisonError::into_inner) = Some(error);
                    return;
                }
            }
        });
        Syncing { goes_on, thread, error }
    }

    /// What went wrong up to now; it is told once.
    fn answer(&self) -> io::Result<()> {
        self.error.lock().unwrap_or_else(PoisonError::into_inner).take().map_or(Ok(()), Err)
    }

    fn end(self) -> io::Result<()> {
        let Syncing { goes_on, thread, error } = self;
        drop(goes_on);
        let _ = thread.join();
        let mut error = error.lock().unwrap_or_else(PoisonError::into_inner);
        error.take().map_or(Ok(()), Err)
    }
}

/// Standard output for text, buffered.
pub struct Text(io::BufWriter<File>);

impl Text {
    pub fn new() -> Result<Text> {
        let file = standard(io::stdout());
        let file = file.map_err(|error| Error::writing("standard output", error))?;
        Ok(Text(io::BufWriter::new(file)))
    }

    pub fn line(&mut self, line: impl fmt::Display) -> Result<()> {
        writeln!(self.0, "{line}").map_err(|error| Error::writing("standard output", error))
    }

    pub fn finish(mut self) -> Result<()> {
        self.0.flush().map_err(|error| Error::writing("standard output", error))
    }
}
