//! A file that appears whole or not at all: it is written without a name, synced, and then given its name. Where the
//! file system has no files without names, it is written beside, under a name of its own, and renamed.
//!
//! So whatever stops the program, under the name of an output there is either what was there before or the whole output.
use std::ffi::{c_char, c_int, CString};
use std::fs::{self, File, OpenOptions, Permissions};
use std::io::{self, ErrorKind, Write};
use std::os::fd::AsRawFd;
use std::os::unix::ffi::OsStrExt;
use std::os::unix::fs::{fchown, MetadataExt, OpenOptionsExt, PermissionsExt};
use std::path::{Path, PathBuf};
use std::sync::atomic::{AtomicU32, Ordering};
use std::sync::Mutex;

/// Linux's, on x86-64, for which the library is built.
const O_TMPFILE: c_int = 0o20200000;
const AT_FDCWD: c_int = -100;
const AT_SYMLINK_FOLLOW: c_int = 0x400;

extern "C" {
    /// Of the C library, which the standard library stands on: its own `hard_link` cannot name an open file.
    fn linkat(
        old_folder: c_int,
        old: *const c_char,
        new_folder: c_int,
        new: *const c_char,
        flags: c_int,
    ) -> c_int;
}

/// The folder that a file is in.
pub fn folder_of(target: &Path) -> &Path {
    target.parent().filter(|p| !p.as_os_str().is_empty()).unwrap_or(Path::new("."))
}

/// Makes the names in a folder last, too. A folder that may not be read, or whose file system syncs none, is left as it is.
pub fn sync_folder(folder: &Path) -> io::Result<()> {
    use ErrorKind::{InvalidInput, PermissionDenied, Unsupported};
    match File::open(folder).and_then(|f| f.sync_all()) {
        Err(why) if matches!(why.kind(), InvalidInput | PermissionDenied | Unsupported) => Ok(()),
        done => done,
    }
}

/// Does something with a name beside the target, with the next one where a name is taken; the name, and what was done.
fn with_name_beside<T>(target: &Path, act: impl Fn(&Path) -> io::Result<T>) -> io::Result<(PathBuf, T)> {
    static COUNT: AtomicU32 = AtomicU32::new(0);
    loop {
        let n = COUNT.fetch_add(1, Ordering::Relaxed);
        let beside = folder_of(target).join(format!(".sg-{}-{n}", std::process::id()));
        match act(&beside) {
            Err(why) if why.kind() == ErrorKind::AlreadyExists => {}
            done => return done.map(|made| (beside, made)),
        }
    }
}

/// Lets the file be read and written by no more people than the one in whose place it comes.
fn keep_access(file: &File, replaced: &Path) -> io::Result<()> {
    let found = fs::metadata(replaced)?;
    let keeps_owner = fchown(file, Some(found.uid()), Some(found.gid())).is_ok();
    // in another group, the group may do what all others may
    let others = found.mode() & 0o007;
    let mode = if keeps_owner { found.mode() } else { (found.mode() & !0o070) | (others << 3) };
    file.set_permissions(Permissions::from_mode(mode & 0o777))
}

fn filled(mut file: File, bytes: &[u8], replaced: Option<&Path>) -> io::Result<File> {
    if let Some(replaced) = replaced {
        keep_access(&file, replaced)?;
    }
    file.write_all(bytes)?;
    file.sync_all()?;
    Ok(file)
}

/// Gives an open file a name, which must be free.
fn give_name(file: &File, name: &Path) -> io::Result<()> {
    let old = CString::new(format!("/proc/self/fd/{}", file.as_raw_fd()))?;
    let new = CString::new(name.as_os_str().as_bytes())?;
    // Both are strings that end with a zero and outlive the call, which writes to neither.
    let done = unsafe { linkat(AT_FDCWD, old.as_ptr(), AT_FDCWD, new.as_ptr(), AT_SYMLINK_FOLLOW) };
    if done == 0 {
        Ok(())
    } else {
        Err(io::Error::last_os_error())
    }
}

/// Puts the file at `beside` in place of the target, or leaves neither changed.
fn put_in_place(beside: &Path, target: &Path) -> io::Result<()> {
    fs::rename(beside, target).inspect_err(|_| drop(fs::remove_file(beside)))
}

fn open_unnamed(folder: &Path) -> io::Result<File> {
    OpenOptions::new().write(true).custom_flags(O_TMPFILE).open(folder)
}

/// A file without a name, named when it is whole.
fn write_unnamed(target: &Path, bytes: &[u8], replace: bool) -> io::Result<()> {
    /// One at a time: a run that is killed between the two steps leaves one file beside, and not one of each thread.
    static REPLACING: Mutex<()> = Mutex::new(());
    let file = filled(open_unnamed(folder_of(target))?, bytes, replace.then_some(target))?;
    if !replace {
        return give_name(&file, target);
    }
    let _alone = REPLACING.lock();
    let (beside, ()) = with_name_beside(target, |beside| give_name(&file, beside))?;
    put_in_place(&beside, target)
}

/// Gives the file at `beside` a name that must be free. Where files cannot have two names, that it is free is seen just
/// before.
fn rename_to_free(beside: &Path, target: &Path) -> io::Result<()> {
    use ErrorKind::{PermissionDenied, Unsupported};
    match fs::hard_link(beside, target) {
        Ok(()) => fs::remove_file(beside),
        Err(why) if !matches!(why.kind(), PermissionDenied | Unsupported) => Err(why),
        Err(_) if fs::symlink_metadata(target).is_ok() => Err(ErrorKind::AlreadyExists.into()),
        Err(_) => fs::rename(beside, target),
    }
}

/// The same where there are no files without names: under a name beside, which is removed if something fails.
fn write_named(target: &Path, bytes: &[u8], replace: bool) -> io::Result<()> {
    let open = |beside: &Path| OpenOptions::new().write(true).create_new(true).open(beside);
    let (beside, file) = with_name_beside(target, open)?;
    let written = filled(file, bytes, replace.then_some(target));
    let named = match (written, replace) {
        (Err(why), _) => Err(why),
        (Ok(_), true) => fs::rename(&beside, target),
        (Ok(_), false) => rename_to_free(&beside, target),
    };
    named.inspect_err(|_| drop(fs::remove_file(&beside)))
}

/// Whether the system may have said so because it has no files without names, no /proc, or only one name for a file.
fn has_no_unnamed(why: &io::Error) -> bool {
    use ErrorKind::{InvalidInput, IsADirectory, NotFound, PermissionDenied, Unsupported};
    matches!(why.kind(), Unsupported | IsADirectory | InvalidInput | NotFound | PermissionDenied)
}

fn write_new(target: &Path, bytes: &[u8], replace: bool) -> io::Result<()> {
    match write_unnamed(target, bytes, replace) {
        Err(why) if has_no_unnamed(&why) => write_named(target, bytes, replace),
        done => done,
    }
}

/// That a file can be made beside this one.
pub fn require_room_beside(target: &Path) -> io::Result<()> {
    match open_unnamed(folder_of(target)) {
        Err(why) if has_no_unnamed(&why) => {
            let open = |beside: &Path| OpenOptions::new().write(true).create_new(true).open(beside);
            let (beside, _) = with_name_beside(target, open)?;
            fs::remove_file(beside)
        }
        opened => opened.map(drop),
    }
}

/// Whether the name is one of an open file of this program, as /dev/stdout is: what is written there is not replaced.
fn is_open_file(target: &Path) -> bool {
    let standard = ["/dev/stdout", "/dev/stderr"].iter().any(|name| target == Path::new(name));
    standard || target.starts_with("/dev/fd") || target.starts_with("/proc/self/fd")
}

/// Whether a file would have to be overwritten.
pub fn is_taken(target: &Path) -> bool {
    target.is_file() && !is_open_file(target)
}

/// Writes the file whole. One that is there is replaced only if that is asked for; into a device or a pipe the bytes go
/// as they are.
pub fn write_whole(target: &Path, bytes: &[u8], replace: bool) -> io::Result<()> {
    match fs::metadata(target) {
        Ok(found) if found.is_dir() => Err(ErrorKind::IsADirectory.into()),
        Ok(_) if !is_taken(target) => OpenOptions::new().write(true).open(target)?.write_all(bytes),
        Ok(_) if !replace => Err(ErrorKind::AlreadyExists.into()),
        // a link stays, and what it leads to is replaced
        Ok(_) => write_new(&fs::canonicalize(target)?, bytes, true),
        Err(_) if target.is_symlink() => Err(io::Error::other("it is a link that leads nowhere")),
        Err(_) => write_new(target, bytes, false),
    }
}

#[cfg(test)]
mod tests {
    use super::{folder_of, require_room_beside, write_named, write_unnamed, write_whole};
    use std::fs::{self, Permissions};
    use std::io::ErrorKind::AlreadyExists;
    use std::os::unix::fs::{symlink, PermissionsExt};
    use std::path::{Path, PathBuf};

    fn empty_folder(name: &str) -> PathBuf {
        let folder = std::env::temp_dir().join(format!("sg-whole-{name}-{}", std::process::id()));
        let _ = fs::remove_dir_all(&folder);
        fs::create_dir(&folder).unwrap();
        folder
    }

    fn names(folder: &Path) -> Vec<String> {
        let found = fs::read_dir(folder).unwrap();
        found.map(|f| f.unwrap().file_name().into_string().unwrap()).collect()
    }

    /// Both ways write the same, replace only if asked to, keep who may read it, and leave nothing beside.
    #[test]
    fn both_ways() {
        type Way = fn(&Path, &[u8], bool) -> std::io::Result<()>;
        for (name, way) in [("unnamed", write_unnamed as Way), ("named", write_named), ("whole", write_whole)]
        {
            let folder = empty_folder(name);
            let target = folder.join("a b\u{e9}");
            way(&target, b"one", false).unwrap();
            assert_eq!(way(&target, b"two", false).unwrap_err().kind(), AlreadyExists, "{name}");
            assert_eq!(fs::read(&target).unwrap(), b"one", "{name}");
            way(&target, b"three", true).unwrap();
            assert_eq!(fs::read(&target).unwrap(), b"three", "{name}");
            fs::set_permissions(&target, Permissions::from_mode(0o600)).unwrap();
            way(&target, b"four", true).unwrap();
            assert_eq!(fs::metadata(&target).unwrap().permissions().mode() & 0o777, 0o600, "{name}");
            require_room_beside(&target).unwrap();
            assert_eq!(names(&folder).len(), 1, "{name}");
            fs::remove_dir_all(folder).unwrap();
        }
    }

    /// A name beside that a killed run has left is passed over.
    #[test]
    fn names_that_are_taken() {
        let folder = empty_folder("taken");
        let target = folder.join("file");
        fs::write(&target, b"old").unwrap();
        for n in 0..200 {
            fs::write(folder.join(format!(".sg-{}-{n}", std::process::id())), b"left").unwrap();
        }
        write_unnamed(&target, b"new", true).unwrap();
        write_named(&target, b"newer", true).unwrap();
        assert_eq!((fs::read(&target).unwrap(), names(&folder).len()), (b"newer".to_vec(), 201));
        fs::remove_dir_all(folder).unwrap();
    }

    #[test]
    fn links_and_folders() {
        let folder = empty_folder("links");
        let (file, link, nowhere) = (folder.join("file"), folder.join("link"), folder.join("nowhere"));
        fs::write(&file, b"old").unwrap();
        symlink("file", &link).unwrap();
        symlink("none", &nowhere).unwrap();
        write_whole(&link, b"new", true).unwrap();
        assert_eq!(
            (fs::read(&file).unwrap(), fs::read_link(&link).unwrap()),
            (b"new".to_vec(), "file".into())
        );
        for replace in [false, true] {
            let told = write_whole(&nowhere, b"", replace).unwrap_err().to_string();
            assert_eq!(told, "it is a link that leads nowhere");
            assert!(write_whole(&folder, b"", replace).is_err());
            assert!(write_whole(&folder.join("none/file"), b"", replace).is_err());
        }
        assert!(require_room_beside(&folder.join("none/file")).is_err());
        assert_eq!(folder_of(Path::new("file")), Path::new("."));
        fs::remove_dir_all(folder).unwrap();
    }
}
