//! Where an image stands, taken for this process alone. A new image is written whole beside the old one, synced, and renamed over it, and the folder is
//! synced: so whoever reads the file, at whatever moment, after whatever kill, finds a whole image, and no code is needed to mend one.

use crate::failure::{Failure, Result};
use crate::image::{Image, Written};
use crate::system::{O_NOFOLLOW, O_NONBLOCK};
use std::ffi::OsString;
use std::fs::{File, Metadata, OpenOptions, Permissions, TryLockError, hard_link, remove_file, rename, symlink_metadata};
use std::io::{self, ErrorKind, Write};
use std::os::unix::fs::{MetadataExt, OpenOptionsExt, PermissionsExt, fchown};
use std::path::{Path, PathBuf};
use std::sync::{Mutex, MutexGuard, PoisonError};

/// Files that were the image and have another name still, so many at most: more would use up what files a process may open.
const MOST_FORMER: usize = 64;

pub struct Place {
    pub path: PathBuf,
    folder: File,
    /// Holds back programs that make an image, where there is none to be locked yet, and those of before, which lock nothing else.
    _lock: File,
    files: Mutex<Files>,
    /// The file that was the image last, where it has no name any more.
    spent: Mutex<Option<File>>,
}

/// The file that is the image, and those that were and have another name still, all locked: a second server is refused by whatever name.
struct Files {
    now: Option<File>,
    former: Vec<File>,
    written: Written,
}

impl Place {
    /// Of an image that is there.
    pub fn take(path: &Path) -> Result<Place> {
        let missing = |why: io::Error| Failure::system(format!("{}: {why}; 'ridgeladle format' makes an image", path.display()));
        let file = path.canonicalize().map_err(missing)?;
        if file.is_file() { Place::locked(file) } else { Err(Failure::data(format!("{} is not a file", path.display()))) }
    }

    /// For an image that is to be made; over one that is there only if that is meant.
    pub fn make(path: &Path, replace: bool) -> Result<Place> {
        let place = Place::locked(path.canonicalize().or_else(|_| std::path::absolute(path)).map_err(|why| Failure::file(path, why))?)?;
        if place.files().now.is_some() && !replace {
            return Err(Failure::system(format!("{} is there already; --replace writes over it", path.display())));
        }
        Ok(place)
    }

    fn locked(path: PathBuf) -> Result<Place> {
        let folder = path.parent().unwrap_or(Path::new("/"));
        let folder = File::open(folder).map_err(|why| Failure::file(folder, why))?;
        let lock = lock_beside(&path)?;
        let now = locked_file(&path)?;
        let files = Files { now, former: Vec::new(), written: Written::default() };
        Ok(Place { path, folder, _lock: lock, files: Mutex::new(files), spent: Mutex::new(None) })
    }

    fn files(&self) -> MutexGuard<'_, Files> {
        self.files.lock().unwrap_or_else(PoisonError::into_inner)
    }

    /// When this returns well the image is on disk, for its owner alone.
    pub fn write(&self, image: &Image) -> io::Result<()> {
        let new = self.write_new(image, None)?;
        self.put_in_place(new)
    }

    /// As `write`, but owner and mode stay what they are.
    pub fn rewrite(&self, image: &Image) -> Result<()> {
        let new = self.write_new(image, self.as_it_is()?.as_ref());
        new.and_then(|new| self.put_in_place(new)).map_err(|why| Failure::file(&self.path, why))
    }

    /// As `rewrite`, and the old image is kept under its name with an ending; gives that name.
    pub fn exchange(&self, image: &Image, ending: &str) -> Result<String> {
        let new = self.write_new(image, self.as_it_is()?.as_ref()).map_err(|why| Failure::file(&self.path, why))?;
        let kept = self.link(&self.path, ending).inspect_err(|_| self.give_up())?;
        self.put_in_place(new).map_err(|why| Failure::file(&self.path, why))?;
        Ok(kept)
    }

    /// Writes an image beside this one, under its name with an ending, with its owner and mode; gives that name.
    pub fn write_beside(&self, image: &Image, ending: &str) -> Result<String> {
        self.write_new(image, self.as_it_is()?.as_ref()).map_err(|why| Failure::file(&self.path, why))?;
        let name = self.link(&self.new_name(), ending);
        self.give_up();
        self.folder.sync_all().map_err(|why| Failure::file(&self.path, why))?;
        name
    }

    fn new_name(&self) -> PathBuf {
        beside(&self.path, ".new")
    }

    fn as_it_is(&self) -> Result<Option<Metadata>> {
        self.files().now.as_ref().map(File::metadata).transpose().map_err(|why| Failure::file(&self.path, why))
    }

    /// Writes FILE.new, whole, synced and locked; where that fails nothing is left of it.
    fn write_new(&self, image: &Image, like: Option<&Metadata>) -> io::Result<File> {
        let make = || OpenOptions::new().write(true).create_new(true).mode(0o600).open(self.new_name());
        let mut file = match make() {
            // What a server left that was killed may have another owner or mode.
            Err(why) if why.kind() == ErrorKind::AlreadyExists => remove_file(self.new_name()).and_then(|()| make())?,
            made => made?,
        };
        let mut written = || {
            file.try_lock()?;
            file.write_all(self.files().written.next(image))?;
            like.map_or(Ok(()), |like| make_alike(&file, like))?;
            file.sync_all()
        };
        written().inspect_err(|_| self.give_up())?;
        Ok(file)
    }

    /// FILE.new is of no use any more; the next write takes it away if this can't.
    fn give_up(&self) {
        let _ = remove_file(self.new_name());
    }

    /// Renames FILE.new over the image, if that is still the file that was locked.
    fn put_in_place(&self, new: File) -> io::Result<()> {
        let mut files = self.files();
        files.at(&self.path).and_then(|()| rename(self.new_name(), &self.path)).inspect_err(|_| self.give_up())?;
        *self.spent() = files.follow(new);
        self.folder.sync_all()
    }

    fn spent(&self) -> MutexGuard<'_, Option<File>> {
        self.spent.lock().unwrap_or_else(PoisonError::into_inner)
    }

    /// Closes the file that was the image last. The system then frees what it took, which may take as long as a sync: time for it is when nobody waits.
    pub fn tidy(&self) {
        let spent = self.spent().take();
        drop(spent);
    }

    /// Gives a file a further name, the image's with an ending, counting up where that is taken; gives the name.
    fn link(&self, file: &Path, ending: &str) -> Result<String> {
        let mut number = 1;
        loop {
            let counted = if number == 1 { ending.to_string() } else { format!("{ending}.{number}") };
            let name = beside(&self.path, &counted);
            match hard_link(file, &name) {
                // A link that an interrupted rescue left will do.
                Err(why) if why.kind() == ErrorKind::AlreadyExists && !same_file(file, &name) => number += 1,
                Err(why) if why.kind() != ErrorKind::AlreadyExists => return Err(Failure::file(&name, why)),
                _ => return Ok(name.file_name().unwrap_or_default().to_string_lossy().into_owned()),
            }
        }
    }
}

impl Files {
    /// Fails where the image's name has become that of another file, which nobody asked to be written over. That it is gone is no harm.
    fn at(&self, path: &Path) -> io::Result<()> {
        let there = match symlink_metadata(path) {
            Err(why) if why.kind() == ErrorKind::NotFound => return Ok(()),
            there => there?,
        };
        let now = self.now.as_ref().map(File::metadata).transpose()?;
        if now.is_some_and(|now| identity(&now) == identity(&there)) {
            Ok(())
        } else {
            Err(io::Error::other("another file has taken its place"))
        }
    }

    /// Gives the file that was the image, where it has no name any more.
    fn follow(&mut self, new: File) -> Option<File> {
        let named = |file: &File| file.metadata().is_ok_and(|file| file.nlink() > 0);
        let old = self.now.replace(new)?;
        if !named(&old) {
            return Some(old);
        }
        self.former.retain(named);
        if self.former.len() == MOST_FORMER {
            self.former.remove(0);
        }
        self.former.push(old);
        None
    }
}

/// Opens FILE.lock, follows no link and cuts nothing off, and locks it.
fn lock_beside(path: &Path) -> Result<File> {
    let name = beside(path, ".lock");
    let mut options = OpenOptions::new();
    options.write(true).mode(0o600).custom_flags(O_NOFOLLOW | O_NONBLOCK);
    let lock = match options.clone().create_new(true).open(&name) {
        // Made by root, it must not keep the image's owner out.
        Ok(lock) => symlink_metadata(path).map_or(Ok(()), |image| give_to(&lock, &image)).map(|()| lock),
        Err(why) if why.kind() == ErrorKind::AlreadyExists => options.open(&name),
        failed => failed,
    };
    let lock = lock.map_err(|why| Failure::file(&name, why))?;
    take_lock(&lock, path)?;
    Ok(lock)
}

/// The file of that name, locked, and still of that name then; none where there is none.
fn locked_file(path: &Path) -> Result<Option<File>> {
    loop {
        let file = match OpenOptions::new().read(true).custom_flags(O_NOFOLLOW | O_NONBLOCK).open(path) {
            Err(why) if why.kind() == ErrorKind::NotFound => return Ok(None),
            file => file.map_err(|why| Failure::file(path, why))?,
        };
        take_lock(&file, path)?;
        let locked = file.metadata().map_err(|why| Failure::file(path, why))?;
        if symlink_metadata(path).is_ok_and(|there| identity(&there) == identity(&locked)) {
            return Ok(Some(file));
        }
    }
}

fn take_lock(file: &File, path: &Path) -> Result<()> {
    file.try_lock().map_err(|refused| match refused {
        TryLockError::WouldBlock => Failure::system(format!("{}: another ridgeladle has it open", path.display())),
        TryLockError::Error(why) => Failure::file(path, why),
    })
}

fn make_alike(file: &File, like: &Metadata) -> io::Result<()> {
    give_to(file, like)?;
    file.set_permissions(Permissions::from_mode(like.mode() & 0o7777))
}

/// Who is not root keeps what they made.
fn give_to(file: &File, like: &Metadata) -> io::Result<()> {
    fchown(file, Some(like.uid()), Some(like.gid()))
        .or_else(|why| if why.kind() == ErrorKind::PermissionDenied { Ok(()) } else { Err(why) })
}

fn identity(file: &Metadata) -> (u64, u64) {
    (file.dev(), file.ino())
}

fn same_file(one: &Path, other: &Path) -> bool {
    let identity = |path| symlink_metadata(path).ok().map(|file| identity(&file));
    identity(one).is_some() && identity(one) == identity(other)
}

fn beside(path: &Path, ending: &str) -> PathBuf {
    let mut name = OsString::from(path);
    name.push(ending);
    PathBuf::from(name)
}
