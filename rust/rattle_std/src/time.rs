//! Clocks, by a runtime.

use crate::rt::HostRuntime;
pub use core::time::Duration;
use host::sync::OnceLock;
use host::time::Instant;
pub use host::time::SystemTime;
use host::{fs, io};

/// What has clocks.
pub trait Clock {
    /// The time since 1970.
    fn since_1970(&self) -> io::Result<Duration> {
        SystemTime::now()
            .duration_since(SystemTime::UNIX_EPOCH)
            .map_err(|_| io::ErrorKind::Other.into())
    }

    /// The time since the first call.
    fn monotonic(&self) -> io::Result<Duration> {
        static FIRST: OnceLock<Instant> = OnceLock::new();
        Ok(FIRST.get_or_init(Instant::now).elapsed())
    }
}

/// What knows the processor time of the process.
pub trait CpuClock: Clock {
    /// The processor time of the first thread, by Linux's `/proc/self/schedstat`. Rust's library
    /// knows none: where that file is not there, it is the time since the first call.
    fn process_cpu_time(&self) -> io::Result<Duration> {
        let stated = fs::read_to_string("/proc/self/schedstat").ok();
        let nanoseconds = stated.and_then(|text| text.split(' ').next()?.parse().ok());
        nanoseconds.map_or_else(|| self.monotonic(), |count| Ok(Duration::from_nanos(count)))
    }
}

impl Clock for HostRuntime {}
impl CpuClock for HostRuntime {}
