//! The command line and the present directory, by a runtime.

use crate::prelude::*;
use crate::rt::Env;
pub use host::env::*;
use host::path::PathBuf;
use host::{env, io};

/// The words of the command line, that of the program first. `InvalidInput` where one of them is
/// not UTF-8.
pub fn args<R: Env>(_: &R) -> io::Result<crate::vec::IntoIter<String>> {
    let words: Result<Vec<String>, _> = env::args_os().map(|word| word.into_string()).collect();
    match words {
        Ok(words) => Ok(words.into_iter()),
        Err(_) => Err(io::ErrorKind::InvalidInput.into()),
    }
}

/// The present directory.
pub fn current_dir<R: Env>(_: &R) -> io::Result<PathBuf> {
    env::current_dir()
}
