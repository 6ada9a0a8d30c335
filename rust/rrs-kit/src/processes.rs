//! Processes by a record of options.

use core::convert::Into;
use rattle_std::alloc::Global;
use rattle_std::io::{Read, Write};
use rattle_std::string::String;
use rattle_std::vec::Vec;
use rrs_exec::{ImageError, ProcessEnd, Progress, Watcher, profile_for};
use rrs_linux::{Heap, Linux, LinuxClocks, StoppedClocks};

/// What a process gets, and how long it runs.
///
/// Each call with the name of a field sets it, and returns the options.
#[derive(Clone, Debug, PartialEq, Eq)]
#[non_exhaustive]
pub struct ProcessOptions {
    /// Its arguments. The first is its name.
    pub arguments: Vec<String>,
    /// Its environment variables, as `NAME=VALUE`.
    pub variables: Vec<String>,
    /// The most bytes of memory that it may have: 64 MiB.
    pub memory: u64,
    /// The most steps that it may make: 2^64 - 1.
    pub limit: u64,
    /// Whether it ends at a load or a store at a misaligned address, which Linux carries out.
    pub strict: bool,
}

impl ProcessOptions {
    /// Those of a process of this name, without arguments or variables.
    pub fn new(name: impl Into<String>) -> Self {
        ProcessOptions {
            arguments: Vec::from([name.into()]),
            variables: Vec::new(),
            memory: 64 << 20,
            limit: u64::MAX,
            strict: false,
        }
    }

    /// With one argument more.
    #[must_use]
    pub fn argument(mut self, argument: impl Into<String>) -> Self {
        self.arguments.push(argument.into());
        self
    }

    /// With one environment variable more, as `NAME=VALUE`.
    #[must_use]
    pub fn variable(mut self, variable: impl Into<String>) -> Self {
        self.variables.push(variable.into());
        self
    }

    /// With so many bytes of memory at most.
    #[must_use]
    pub fn memory(self, memory: u64) -> Self {
        ProcessOptions { memory, ..self }
    }

    /// With so many steps at most.
    #[must_use]
    pub fn limit(self, limit: u64) -> Self {
        ProcessOptions { limit, ..self }
    }

    /// With misaligned loads and stores as faults, or carried out.
    #[must_use]
    pub fn strict(self, strict: bool) -> Self {
        ProcessOptions { strict, ..self }
    }
}

/// An environment with these streams, clocks that stand at 0, and the seed 0 of its pseudo-random
/// numbers: so that each run is the same. [`Linux::new`] takes others.
pub fn environment<R: Read, W: Write, E: Write>(input: R, output: W, errors: E) -> Linux<R, W, E> {
    let clocks = LinuxClocks::Stopped(StoppedClocks::ZERO);
    Linux::new(input, output, errors, Heap::new(0, 0), clocks, 0)
}

/// Runs a file's bytes as an executable, and serves its calls of Linux, until it ends, raises an
/// exception, or reaches its limit. The environment has its heap then. The progress is told of its
/// steps: [`NoProgress`](rrs_exec::NoProgress) does nothing.
///
/// The decoded words of the process take 1.25 MiB of the stack, and several times that in a build
/// without optimization: a thread of one's own gets 16 MiB by `std::thread::Builder::stack_size`.
///
/// # Errors
///
/// [`ImageError`] where the file can't be made a process. Then no step is made.
///
/// # Examples
///
/// ```
/// use rrs_kit::linux::exec::{NoProgress, ProcessOptions, environment, execute_process};
/// # fn main() -> Result<(), Box<dyn std::error::Error>> {
/// let file: &[u8] = b"no executable";
/// let (input, mut output, mut errors) = (&b""[..], Vec::new(), Vec::new());
/// let mut streams = environment(input, &mut output, &mut errors);
/// let options = ProcessOptions::new("program").argument("-v").limit(1_000_000);
/// let refused = execute_process(file, &options, &mut streams, &mut NoProgress).unwrap_err();
/// assert_eq!(refused.to_string(), "not an ELF file");
/// # Ok(())
/// # }
/// ```
pub fn execute_process<R: Read, W: Write, E: Write, P: Progress>(
    file: &[u8],
    options: &ProcessOptions,
    environment: &mut Linux<R, W, E>,
    progress: &mut P,
) -> Result<ProcessEnd, ImageError> {
    let ProcessOptions { arguments, variables, memory, limit, strict } = options;
    rrs_exec::execute_process(
        Global,
        file,
        arguments,
        variables,
        *memory,
        *limit,
        profile_for(file, *strict),
        environment,
        progress,
    )
}

/// Runs a file's bytes as [`execute_process`] does, and has a watcher make each step.
///
/// # Errors
///
/// [`ImageError`] where the file can't be made a process. Then no step is made.
pub fn watch_process<R: Read, W: Write, E: Write, V: Watcher, P: Progress>(
    file: &[u8],
    options: &ProcessOptions,
    environment: &mut Linux<R, W, E>,
    watcher: &mut V,
    progress: &mut P,
) -> Result<ProcessEnd, ImageError> {
    let ProcessOptions { arguments, variables, memory, limit, strict } = options;
    rrs_exec::watch_process(
        Global,
        file,
        arguments,
        variables,
        *memory,
        *limit,
        profile_for(file, *strict),
        environment,
        watcher,
        progress,
    )
}
