//! Why a call fails.

use crate::Receipt;
use std::fmt;
use std::io;
use std::process::ExitStatus;

/// Why a call failed.
#[derive(Debug)]
#[non_exhaustive]
pub enum Error {
    /// The pool refused the call, which changed nothing. There is a cause if more is known than the refusal says: which
    /// limit a number is above, or what stopped an open or a create.
    Refused { refusal: Refusal, cause: Option<String> },
    /// The transaction took place, but could not be made durable. A power failure may lose it.
    NotDurable(Receipt, Refusal),
    /// A [`write_long`](crate::Pool::write_long) was cut short: the first `committed` of its bytes are in the pool.
    CutShort { committed: u64, error: Box<Error> },
    /// The frame was refused whole, with this number of `docs/FRAMES.md`. The call was not made.
    FrameRefused(u32),
    /// The file or the socket can't be used, for this cause. There is an error of the system unless the program itself
    /// refused the file: `NotFound`, `PermissionDenied`, `WouldBlock` if another process has it, or `AlreadyExists`.
    Unusable { cause: String, source: Option<io::Error> },
    /// `PROGRAM create` made no pool, and printed this text instead of a refusal.
    NotCreated { status: Option<ExitStatus>, text: String },
    /// The process ended before it said whether the pool is open: it is no `ztxg`, an old one, or one without memory.
    NoOpening(Option<ExitStatus>),
    /// The process did not answer or end within the timeout. It may yet make the call, unless the pool is closed.
    TimedOut,
    /// The process ended before it answered. What was not durable may be lost.
    Ended,
    /// The process answered what is no frame, or what answers another call.
    BadAnswer,
    /// A call before this one got no whole answer, so answers can't be told apart. This call was not made.
    Broken,
    /// The pool was opened before a fork, by the parent. The child opens a pool of its own.
    Forked,
    /// The process did not end well after [`close`](crate::Pool::close). What was not durable may be lost.
    BadEnd(ExitStatus),
    /// The process could not be started or waited for.
    System(io::Error),
}

impl Error {
    /// A refusal whose cause is its own text.
    pub(crate) fn refused(refusal: Refusal) -> Error {
        Error::Refused { refusal, cause: None }
    }

    /// What is above a limit, with its value and the limit.
    pub(crate) fn out_of_bounds(refusal: Refusal, cause: String) -> Error {
        Error::Refused { refusal, cause: Some(cause) }
    }

    /// The error of a write that was cut short after this many bytes.
    pub(crate) fn after(self, committed: usize) -> Error {
        if committed == 0 {
            return self;
        }
        Error::CutShort { committed: committed as u64, error: Box::new(self) }
    }

    /// Why the pool refused the call, or could not make it durable.
    pub fn refusal(&self) -> Option<Refusal> {
        match self {
            Error::Refused { refusal, .. } | Error::NotDurable(_, refusal) => Some(*refusal),
            Error::CutShort { error, .. } => error.refusal(),
            _ => None,
        }
    }
}

/// Why a pool refuses a call: the refusals of `docs/FORMATS.md`, in the order of their numbers from 1 on.
#[derive(Clone, Copy, Debug, PartialEq, Eq)]
#[non_exhaustive]
pub enum Refusal {
    NoMemory,
    Read,
    /// The pool is suspended then: close it and open it again.
    Write,
    /// The pool is suspended then: close it and open it again.
    Flush,
    Suspended,
    NoPool,
    /// The kind and the address of the block.
    Damaged {
        kind: u64,
        address: u64,
    },
    BadGeometry,
    NoObject,
    Exists,
    BadRange,
    OutOfPlan,
    NotLocked,
    Busy,
    LockInUse,
    NoSpace,
    Throttled,
    TooLarge,
    NoSuchTransaction,
    NotReady,
    NoSuchLock,
    /// Also a transaction of more than 256 ranges.
    TooMany,
    NoLogSpace,
}

impl Refusal {
    /// The refusal with a number, if there is one.
    pub(crate) fn of_number(number: u32, kind: u64, address: u64) -> Option<Refusal> {
        let refusal = match number {
            1 => Refusal::NoMemory,
            2 => Refusal::Read,
            3 => Refusal::Write,
            4 => Refusal::Flush,
            5 => Refusal::Suspended,
            6 => Refusal::NoPool,
            7 => Refusal::Damaged { kind, address },
            8 => Refusal::BadGeometry,
            9 => Refusal::NoObject,
            10 => Refusal::Exists,
            11 => Refusal::BadRange,
            12 => Refusal::OutOfPlan,
            13 => Refusal::NotLocked,
            14 => Refusal::Busy,
            15 => Refusal::LockInUse,
            16 => Refusal::NoSpace,
            17 => Refusal::Throttled,
            18 => Refusal::TooLarge,
            19 => Refusal::NoSuchTransaction,
            20 => Refusal::NotReady,
            21 => Refusal::NoSuchLock,
            22 => Refusal::TooMany,
            23 => Refusal::NoLogSpace,
            _ => return None,
        };
        Some(refusal)
    }
}

impl fmt::Display for Refusal {
    fn fmt(&self, f: &mut fmt::Formatter<'_>) -> fmt::Result {
        let text = match self {
            Refusal::NoMemory => "there is no memory for the call",
            Refusal::Read => "the device refused a read",
            Refusal::Write => "the device refused a write",
            Refusal::Flush => "the device refused a flush",
            Refusal::Suspended => "the pool is suspended: a write or a flush was refused before",
            Refusal::NoPool => "the device holds no pool: no label has a valid uberblock with a config",
            Refusal::Damaged { kind, address } => {
                return write!(f, "the block of kind {kind} at byte {address} is damaged");
            }
            Refusal::BadGeometry => "a pool can't have the size of this device",
            Refusal::NoObject => "there is no such object",
            Refusal::Exists => "the object exists already",
            Refusal::BadRange => "a number, a range, a plan, a name or a limit is out of bounds",
            Refusal::OutOfPlan => "the operations are not those of the transaction's plan",
            Refusal::NotLocked => "no lock of the owner covers the range",
            Refusal::Busy => "the range overlaps one that is locked",
            Refusal::LockInUse => "an open transaction uses the lock",
            Refusal::NoSpace => "there are not enough free blocks",
            Refusal::Throttled => "too many bytes are not synced yet: sync a group first",
            Refusal::TooLarge => "the transaction's log record would have more than 65536 bytes",
            Refusal::NoSuchTransaction => "no such transaction is open",
            Refusal::NotReady => "the transaction groups are not ready for this step",
            Refusal::NoSuchLock => "the owner holds no such lock",
            Refusal::TooMany => "there are as many locks or transactions as there may be, or no number is left",
            Refusal::NoLogSpace => "there is no block for the log, or no log number is left",
        };
        f.write_str(text)
    }
}

impl fmt::Display for Error {
    fn fmt(&self, f: &mut fmt::Formatter<'_>) -> fmt::Result {
        match self {
            Error::Refused { refusal, cause: Some(cause) } if *cause != refusal.to_string() => {
                write!(f, "{refusal}: {cause}")
            }
            Error::Refused { refusal, .. } => refusal.fmt(f),
            Error::NotDurable(_, refusal) => write!(f, "the transaction took place, but is not durable: {refusal}"),
            Error::CutShort { committed, error } => write!(f, "{committed} bytes were committed, and then: {error}"),
            Error::FrameRefused(number) => write!(f, "the frame was refused with number {number}"),
            Error::Unusable { cause, .. } => write!(f, "the file can't be used: {cause}"),
            Error::NotCreated { status, text } => {
                write!(f, "the program made no pool, and ended with {}: {}", Known(*status), text.trim_end())
            }
            Error::NoOpening(status) => {
                write!(f, "the process ended with {} before it said whether the pool is open", Known(*status))
            }
            Error::TimedOut => f.write_str("the process with the pool did not answer in time"),
            Error::Ended => f.write_str("the process with the pool ended"),
            Error::BadAnswer => f.write_str("the process answered what is no frame, or another call"),
            Error::Broken => f.write_str("a call before this one got no whole answer: close the pool"),
            Error::Forked => f.write_str("the pool was opened before a fork, by the parent"),
            Error::BadEnd(status) => write!(f, "the process with the pool ended with {status}"),
            Error::System(error) => write!(f, "a call of the system failed: {error}"),
        }
    }
}

/// The status of a process, which isn't known if the caller ignores SIGCHLD.
struct Known(Option<ExitStatus>);

impl fmt::Display for Known {
    fn fmt(&self, f: &mut fmt::Formatter<'_>) -> fmt::Result {
        match self.0 {
            Some(status) => status.fmt(f),
            None => f.write_str("an unknown status"),
        }
    }
}

impl std::error::Error for Error {
    fn source(&self) -> Option<&(dyn std::error::Error + 'static)> {
        match self {
            Error::System(error) | Error::Unusable { source: Some(error), .. } => Some(error),
            Error::CutShort { error, .. } => Some(error),
            _ => None,
        }
    }
}

/// Why answers can't be told apart any more.
#[derive(Clone, Copy, Debug, PartialEq, Eq)]
pub(crate) enum Broken {
    Ended,
    TimedOut,
    BadAnswer,
    /// A thread panicked between a frame and its answer.
    CutOff,
}

impl Broken {
    /// The error of a call whose answer did not come.
    pub(crate) fn of_asked(self) -> Error {
        match self {
            Broken::Ended => Error::Ended,
            Broken::TimedOut => Error::TimedOut,
            Broken::BadAnswer => Error::BadAnswer,
            Broken::CutOff => Error::Broken,
        }
    }

    /// The error of a call that was not made.
    pub(crate) fn of_later(self) -> Error {
        match self {
            Broken::Ended => Error::Ended,
            _ => Error::Broken,
        }
    }
}

impl From<io::Error> for Broken {
    fn from(error: io::Error) -> Broken {
        match error.kind() {
            io::ErrorKind::WouldBlock | io::ErrorKind::TimedOut => Broken::TimedOut,
            _ => Broken::Ended,
        }
    }
}
