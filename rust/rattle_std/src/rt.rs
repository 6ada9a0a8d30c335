//! The runtime, as a value that is passed: what reaches the host beside memory.

use crate::alloc::Global;
#[cfg(feature = "std")]
pub use crate::ahead::read_within;
#[cfg(feature = "std")]
pub use host_runtime::*;

/// What has the allocator of the program.
pub trait AllocGlobal {
    /// The allocator.
    fn alloc(&self) -> Global {
        Global
    }
}

#[cfg(feature = "std")]
mod host_runtime {
    use super::AllocGlobal;
    use crate::ahead::{self, Ahead};
    use crate::alloc::Global;
    use crate::fs::{Names, OpenFile};
    use crate::io::IsTerminal;
    use core::fmt::Display;
    use host::fs::File;
    use host::io::{self, BufRead, Read, Seek, Write};
    use host::os::fd::AsFd;
    use host::path::PathBuf;

    /// The runtime of the host: its files, its standard streams, its clocks.
    #[derive(Clone, Copy, Debug, Default)]
    pub struct HostRuntime(());

    impl HostRuntime {
        /// The runtime, for `main` and for tests.
        pub fn new() -> HostRuntime {
            HostRuntime(())
        }

        /// Standard input, without a buffer.
        pub fn stdin(&self) -> Stream<io::Stdin> {
            Stream::of(io::stdin())
        }

        /// Standard output, without a buffer.
        pub fn stdout(&self) -> Stream<io::Stdout> {
            Stream::of(io::stdout())
        }

        /// Standard error, without a buffer.
        pub fn stderr(&self) -> Stream<io::Stderr> {
            Stream::of(io::stderr())
        }
    }

    /// A standard stream, by a duplicate of its descriptor, which is made where it is first used.
    /// Where the process may have no more of them it is the stream of Rust's library, and what is
    /// written leaves its buffer at once. A read that is not to wait for ever is of what a thread
    /// reads ahead.
    #[derive(Debug)]
    pub struct Stream<S> {
        duplicate: Option<Option<File>>,
        ahead: Option<Option<Ahead>>,
        own: S,
    }

    impl<S: AsFd> Stream<S> {
        fn of(own: S) -> Stream<S> {
            let (duplicate, ahead) = (None, None);
            Stream {
                duplicate,
                ahead,
                own,
            }
        }

        /// The duplicate, or else the stream of Rust's library.
        fn parts(&mut self) -> (Option<&mut File>, &mut S) {
            let Stream { duplicate, own, .. } = self;
            let made = || own.as_fd().try_clone_to_owned().ok().map(File::from);
            (duplicate.get_or_insert_with(made).as_mut(), own)
        }
    }

    impl<S: io::IsTerminal> IsTerminal for Stream<S> {
        fn is_terminal(&self) -> bool {
            self.own.is_terminal()
        }
    }

    impl<S: AsFd + Read> Read for Stream<S> {
        fn read(&mut self, bytes: &mut [u8]) -> io::Result<usize> {
            if ahead::asked().is_some() && self.ahead.is_none() {
                let ahead = self.parts().0.and_then(|file| Ahead::of(file));
                self.ahead = Some(ahead);
            }
            if let Some(Some(ahead)) = &self.ahead {
                let patience = ahead::asked().unwrap_or_default();
                return ahead.read(bytes, patience);
            }
            match self.parts() {
                (Some(file), _) => file.read(bytes),
                (None, own) => own.read(bytes),
            }
        }
    }

    impl<S: AsFd + Write> Write for Stream<S> {
        fn write(&mut self, bytes: &[u8]) -> io::Result<usize> {
            match self.parts() {
                (Some(file), _) => file.write(bytes),
                (None, own) => {
                    own.write_all(bytes)?;
                    own.flush().map(|()| bytes.len())
                }
            }
        }

        fn flush(&mut self) -> io::Result<()> {
            self.own.flush()
        }
    }

    /// What prints to standard output.
    pub trait Print {
        /// Prints a value.
        fn print<D: Display>(&self, what: D) -> io::Result<()> {
            write!(io::stdout(), "{what}")
        }

        /// Prints a value and a line feed.
        fn println<D: Display>(&self, what: D) -> io::Result<()> {
            writeln!(io::stdout(), "{what}")
        }
    }

    /// What prints to standard error.
    pub trait Eprint {
        /// Prints a value and a line feed.
        fn eprintln<D: Display>(&self, what: D) -> io::Result<()> {
            writeln!(io::stderr(), "{what}")
        }
    }

    /// What reads standard input.
    pub trait Input {
        /// A reader of standard input, with the buffer of Rust's library.
        fn reader(&self) -> impl BufRead {
            io::stdin().lock()
        }
    }

    /// What has the words of the command line, and the environment.
    pub trait Env {}

    /// What opens files.
    pub trait Files {
        /// A file that is open.
        type File: Read + Write + Seek + OpenFile;

        /// A directory that is open. It is read as its names, each ended by a 0, and none in parts.
        type Dir: Read;

        #[doc(hidden)]
        fn of(file: File) -> Self::File;

        /// The text of a link.
        fn read_link(&self, _: Global, path: &str) -> io::Result<PathBuf>;

        /// Opens a directory.
        fn open_dir(&self, path: &str) -> io::Result<Self::Dir>;
    }

    impl AllocGlobal for HostRuntime {}
    impl Print for HostRuntime {}
    impl Eprint for HostRuntime {}
    impl Input for HostRuntime {}
    impl Env for HostRuntime {}

    impl Files for HostRuntime {
        type File = File;

        type Dir = Names;

        fn read_link(&self, _: Global, path: &str) -> io::Result<PathBuf> {
            host::fs::read_link(path)
        }

        fn of(file: File) -> File {
            file
        }

        fn open_dir(&self, path: &str) -> io::Result<Names> {
            Names::of(path)
        }
    }
}
