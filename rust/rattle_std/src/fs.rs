//! Files, by a runtime. Each call is that of Rust's `std::fs` of its name.

use crate::rt::Files;
pub use host::fs::{FileTimes, Metadata, Permissions};
use host::path::PathBuf;
use host::{fs, io};

/// Opens a file for reading.
pub fn open<R: Files>(_: &R, path: &str) -> io::Result<R::File> {
    fs::File::open(path).map(R::of)
}

/// What makes files.
pub struct File;

impl File {
    /// Makes a file, or empties one that is there, and opens it for writing.
    pub fn create<R: Files>(_: &R, path: &str) -> io::Result<R::File> {
        fs::File::create(path).map(R::of)
    }
}

/// How a file is opened.
#[derive(Clone, Debug)]
pub struct OpenOptions(fs::OpenOptions);

macro_rules! options {
    ($($name:ident)*) => {$(
        /// Rust's of its name.
        pub fn $name(&mut self, value: bool) -> &mut OpenOptions {
            self.0.$name(value);
            self
        }
    )*};
}

impl OpenOptions {
    /// Options of which none is set.
    #[allow(clippy::new_without_default)]
    pub fn new() -> OpenOptions {
        OpenOptions(fs::OpenOptions::new())
    }

    options!(read write append truncate create create_new);

    /// Opens a file so.
    pub fn open<R: Files>(&self, _: &R, path: &str) -> io::Result<R::File> {
        self.0.open(path).map(R::of)
    }

    /// An open so waits for no other process, as that of a FIFO does, and follows no link as the last
    /// part of the path: `O_NONBLOCK` and `O_NOFOLLOW`. Where their numbers are not known here it
    /// changes nothing. Rattle's library has no such call.
    pub fn neither_waits_nor_follows(&mut self) -> &mut OpenOptions {
        #[cfg(unix)]
        host::os::unix::fs::OpenOptionsExt::custom_flags(&mut self.0, WITHOUT_WAIT | WITHOUT_LINK);
        self
    }
}

/// What has the flags of Linux by their usual numbers.
#[cfg(unix)]
const IS_LINUX: bool = cfg!(any(target_os = "linux", target_os = "android"))
    && cfg!(any(
        target_arch = "x86",
        target_arch = "x86_64",
        target_arch = "arm",
        target_arch = "aarch64",
        target_arch = "riscv32",
        target_arch = "riscv64"
    ));

/// `O_NONBLOCK`.
#[cfg(unix)]
const WITHOUT_WAIT: i32 = if IS_LINUX {
    0o4000
} else if cfg!(target_vendor = "apple") {
    4
} else {
    0
};

/// `O_NOFOLLOW`.
#[cfg(unix)]
const WITHOUT_LINK: i32 = if IS_LINUX {
    let is_of_arm = cfg!(any(target_arch = "arm", target_arch = "aarch64"));
    if is_of_arm { 0o100000 } else { 0o400000 }
} else if cfg!(target_vendor = "apple") {
    0x100
} else {
    0
};

#[cfg(unix)]
impl host::os::unix::fs::OpenOptionsExt for OpenOptions {
    fn mode(&mut self, mode: u32) -> &mut OpenOptions {
        self.0.mode(mode);
        self
    }

    fn custom_flags(&mut self, flags: i32) -> &mut OpenOptions {
        self.0.custom_flags(flags);
        self
    }
}

/// What a file that is open tells of itself.
pub trait OpenFile {
    /// What is known of it.
    fn metadata(&self) -> io::Result<Metadata>;

    /// Gives it so many bytes.
    fn set_len(&self, size: u64) -> io::Result<()>;

    /// Puts what was written on the device.
    fn sync_all(&self) -> io::Result<()>;

    /// Puts the bytes that were written on the device.
    fn sync_data(&self) -> io::Result<()>;

    /// Sets who may do what with it.
    fn set_permissions(&self, to: Permissions) -> io::Result<()>;

    /// Sets when it was read last, and written.
    fn set_times(&self, to: FileTimes) -> io::Result<()>;
}

impl OpenFile for fs::File {
    fn metadata(&self) -> io::Result<Metadata> {
        fs::File::metadata(self)
    }

    // Rust has its own error for such a size, the library the kind of it.
    fn set_len(&self, size: u64) -> io::Result<()> {
        if i64::try_from(size).is_err() {
            return Err(io::ErrorKind::InvalidInput.into());
        }
        fs::File::set_len(self, size)
    }

    fn sync_all(&self) -> io::Result<()> {
        fs::File::sync_all(self)
    }

    fn sync_data(&self) -> io::Result<()> {
        fs::File::sync_data(self)
    }

    fn set_permissions(&self, to: Permissions) -> io::Result<()> {
        fs::File::set_permissions(self, to)
    }

    fn set_times(&self, to: FileTimes) -> io::Result<()> {
        fs::File::set_times(self, to)
    }
}

/// How a directory is made.
#[derive(Debug)]
pub struct DirBuilder(fs::DirBuilder);

impl DirBuilder {
    /// Alone, with all rights that the host gives.
    #[allow(clippy::new_without_default)]
    pub fn new() -> DirBuilder {
        DirBuilder(fs::DirBuilder::new())
    }

    /// Makes a directory so.
    pub fn create<R: Files>(&self, _: &R, path: &str) -> io::Result<()> {
        self.0.create(path)
    }
}

#[cfg(unix)]
impl host::os::unix::fs::DirBuilderExt for DirBuilder {
    fn mode(&mut self, mode: u32) -> &mut DirBuilder {
        self.0.mode(mode);
        self
    }
}

/// The names in a directory, each ended by a 0. It has them when it is opened.
#[derive(Debug)]
pub struct Names(host::vec::IntoIter<host::ffi::OsString>, Option<host::ffi::OsString>);

impl Names {
    /// The names in the directory of a path.
    pub(crate) fn of(path: &str) -> io::Result<Names> {
        let entries = fs::read_dir(path)?.map(|entry| Ok(entry?.file_name()));
        let names: io::Result<host::vec::Vec<_>> = entries.collect();
        Ok(Names(names?.into_iter(), None))
    }
}

impl io::Read for Names {
    fn read(&mut self, room: &mut [u8]) -> io::Result<usize> {
        let mut size = 0;
        while let Some(name) = self.1.take().or_else(|| self.0.next()) {
            let bytes = name.as_encoded_bytes();
            let end = size + bytes.len();
            if end >= room.len() {
                self.1 = Some(name);
                break;
            }
            room[size..end].copy_from_slice(bytes);
            room[end] = 0;
            size = end + 1;
        }
        Ok(size)
    }
}

/// What is known of a file, or of a link.
pub fn symlink_metadata<R: Files>(_: &R, path: &str) -> io::Result<Metadata> {
    fs::symlink_metadata(path)
}

/// Removes the name of a file.
pub fn remove_file<R: Files>(_: &R, path: &str) -> io::Result<()> {
    fs::remove_file(path)
}

/// Removes an empty directory.
pub fn remove_dir<R: Files>(_: &R, path: &str) -> io::Result<()> {
    fs::remove_dir(path)
}

/// Gives a file another name.
pub fn rename<R: Files>(_: &R, from: &str, to: &str) -> io::Result<()> {
    fs::rename(from, to)
}

/// What is known of a file.
pub fn metadata<R: Files>(_: &R, path: &str) -> io::Result<Metadata> {
    fs::metadata(path)
}

/// Sets who may do what with a file.
pub fn set_permissions<R: Files>(_: &R, path: &str, to: Permissions) -> io::Result<()> {
    fs::set_permissions(path, to)
}

/// The path of a file from the root on, without links.
pub fn canonicalize<R: Files>(_: &R, path: &str) -> io::Result<PathBuf> {
    fs::canonicalize(path)
}
