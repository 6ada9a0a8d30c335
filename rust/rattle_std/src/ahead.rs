//! Standard input, which a thread reads ahead, for what can't wait for it.
//!
//! Whether a read would wait can't be asked in safe Rust. So where a read is not to wait for ever a
//! thread reads instead, one byte ahead, and hands each byte over by a channel. A regular file is
//! always ready: it is read as it is, so that what is read of it is the same each time.

use core::cell::Cell;
use core::time::Duration;
use host::fs::File;
use host::io::{self, ErrorKind, Read};
use host::sync::mpsc::{Receiver, RecvTimeoutError, SyncSender, TryRecvError, sync_channel};
use host::thread;

/// How long what finds no byte at the end of an input sleeps that may wait: so what asks again and
/// again leaves the processor alone.
const REST: Duration = Duration::from_millis(1);

/// How long a read of standard input may wait: for ever, if there is no most.
#[derive(Clone, Copy, Debug, Default, PartialEq)]
pub(crate) struct Patience {
    most: Option<Duration>,
}

host::thread_local! {
    /// The patience of the read that is made, where one was asked for.
    static ASKED: Cell<Option<Patience>> = const { Cell::new(None) };
}

/// Reads as the reader does. Where that reads standard input, and this is no regular file, it waits
/// for so many milliseconds at most, or for ever where there are none: after them the error is
/// `ErrorKind::WouldBlock`.
pub fn read_within<R: Read>(
    reader: &mut R,
    bytes: &mut [u8],
    milliseconds: Option<u64>,
) -> io::Result<usize> {
    let most = milliseconds.map(Duration::from_millis);
    ASKED.set(Some(Patience { most }));
    let read = reader.read(bytes);
    ASKED.set(None);
    read
}

/// The patience of the read that is made, where one was asked for.
pub(crate) fn asked() -> Option<Patience> {
    ASKED.get()
}

/// What the thread that reads hands over: a byte, or `None` at the end.
type Handed = io::Result<Option<u8>>;

/// An input that a thread reads, one byte ahead.
#[derive(Debug)]
pub(crate) struct Ahead {
    handed: Receiver<Handed>,
}

impl Ahead {
    /// Starts the thread, if the input is no regular file. A process that may have no more threads
    /// has none, and waits.
    pub(crate) fn of(file: &File) -> Option<Ahead> {
        if file.metadata().is_ok_and(|data| data.is_file()) {
            return None;
        }
        let file = file.try_clone().ok()?;
        let (hand, handed) = sync_channel(0);
        let reads = move || read_ahead(file, &hand);
        thread::Builder::new().spawn(reads).ok()?;
        Some(Ahead { handed })
    }

    /// The next byte of the input, of which there is none at its end.
    pub(crate) fn read(&self, bytes: &mut [u8], patience: Patience) -> io::Result<usize> {
        let (Some(handed), Some(place)) = (self.next(patience.most), bytes.first_mut()) else {
            return Err(ErrorKind::WouldBlock.into());
        };
        let Some(byte) = handed? else {
            if patience.most != Some(Duration::ZERO) {
                thread::sleep(REST);
            }
            return Ok(0);
        };
        *place = byte;
        Ok(1)
    }

    /// What is handed over within this time.
    fn next(&self, most: Option<Duration>) -> Option<Handed> {
        let handed = match most {
            None => self.handed.recv().map_err(|_| true),
            Some(Duration::ZERO) => {
                let handed = self.handed.try_recv();
                handed.map_err(|error| error == TryRecvError::Disconnected)
            }
            Some(most) => {
                let handed = self.handed.recv_timeout(most);
                handed.map_err(|error| error == RecvTimeoutError::Disconnected)
            }
        };
        match handed {
            Ok(handed) => Some(handed),
            Err(true) => Some(Ok(None)),
            Err(false) => None,
        }
    }
}

/// Reads byte by byte. Each is handed over before the next is read, so no more than one is read
/// that is not asked for. At the end it is read again, since a terminal may have more then.
fn read_ahead(mut file: File, hand: &SyncSender<Handed>) {
    loop {
        let mut byte = [0];
        let read = file.read(&mut byte);
        let handed = read.map(|count| (count != 0).then_some(byte[0]));
        if hand.send(handed).is_err() {
            return;
        }
    }
}
