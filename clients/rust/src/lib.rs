//! A pool of numbered objects in a file, changed by transactions that survive a power failure.
//!
//! [`Pool::transact`] commits: a power failure may lose it until a [`flush`](Pool::flush) or a [`sync`](Pool::sync).
//! [`Pool::transact_durably`] returns once no power failure loses it.
//!
//! [`Pool::open`] starts `PROGRAM serve FILE`, a process that has the pool, and asks it by frames
//! (`docs/FRAMES.md`). It ends when the pool is closed or dropped. What several threads ask at once goes in one frame, so their
//! durable transactions share a flush. [`Pool::open_socket`] uses a pool that several programs share.
//!
//! ```no_run
//! use topzerad::{Op, Pool};
//!
//! # fn main() -> Result<(), topzerad::Error> {
//! Pool::create("ztxg", "tank.pool", "tank", 77, 64 << 20)?;
//! let pool = Pool::open("ztxg", "tank.pool")?;
//! pool.transact_durably(&[Op::Create(1), Op::Write { object: 1, offset: 0, bytes: b"hello" }])?;
//! assert_eq!(pool.read(1, 0, 5)?, b"hello");
//! pool.close()
//! # }
//! ```
//!
//! [`Pool::put`], [`get`](Pool::get), [`remove`](Pool::remove) and [`names`](Pool::names) know objects by names in
//! place of numbers.
//!
//! # Limits
//!
//! - The record of a transaction has at most 65,536 bytes: 22, and for each operation 5, 13 (a new length), 17 and its
//!   bytes (a write), or 5 and its bytes (a name). Else it is refused `TooLarge`.
//! - A transaction has at most 256 ranges, one for each operation. So 257 small writes are refused `TooMany`.
//! - A small write is charged 20,480 bytes or more, and a transaction at most the dirty limit, 4 MiB if none is given.
//!   So 204 small writes reach it, and 205 are refused `Throttled`.
//! - Objects have numbers below [`OBJECTS`] and at most [`MAX_LENGTH`] bytes. Else a transaction is refused `BadRange`.
//!
//! The first and the last are tested before anything is sent.

#![forbid(unsafe_code)]

mod error;
mod frames;
mod name_table;
mod options;
mod record;
mod server;
mod turns;

pub use error::{Error, Refusal};
pub use name_table::MAX_OBJECT_NAME;
pub use options::{CreateOptions, Options};

use frames::{Answer, Outcome, Request, Sizes};
use name_table::{check_name, NameTable};
use server::{Connection, Holds, Server};
use std::collections::BTreeMap;
use std::ffi::OsStr;
use std::fmt;
use std::mem;
use std::path::Path;
use std::sync::atomic::Ordering;
use std::sync::{Mutex, MutexGuard, PoisonError};
use turns::Turns;

/// Objects have the numbers below this one.
pub const OBJECTS: u32 = 5_292;

/// The most bytes of an object.
pub const MAX_LENGTH: u64 = 28_449_792;

/// A write of [`Pool::write_long`] ends at a multiple of these bytes: 16 records of 4,032. So none is written twice.
const WRITE: u64 = 64_512;

/// An operation of a transaction.
#[derive(Clone, Copy, Debug, PartialEq, Eq)]
pub enum Op<'a> {
    /// Makes an object without bytes.
    Create(u32),
    /// Removes an object.
    Remove(u32),
    /// Writes bytes, one at least, to an object from an offset on. It grows if it ends before them.
    Write { object: u32, offset: u64, bytes: &'a [u8] },
    /// Cuts an object, or lets it grow by zeros.
    SetLength { object: u32, length: u64 },
    /// Gives the pool a name of 1 to 64 bytes: first an ASCII letter, then letters, digits, `-`, `_`, `.`.
    SetName(&'a [u8]),
}

/// What an open found: the pool's guid, the group that was synced last, and how many records of the log were replayed
/// above it.
#[derive(Clone, Copy, Debug, PartialEq, Eq)]
pub struct Opened {
    pub guid: u64,
    pub group: u64,
    pub records: u64,
}

/// Where a transaction stands in the history since the pool was opened, and its group.
#[derive(Clone, Copy, Debug, PartialEq, Eq)]
pub struct Receipt {
    pub ordinal: u64,
    pub group: u64,
}

/// An object that is there, and its length in bytes.
#[derive(Clone, Copy, Debug, PartialEq, Eq)]
pub struct Listed {
    pub object: u32,
    pub length: u64,
}

/// The groups, 0 for one that isn't there; the bytes that are charged to unsynced groups; the free blocks and those
/// that transactions may take.
#[derive(Clone, Copy, Debug, PartialEq, Eq)]
pub struct Status {
    pub synced: u64,
    pub syncing: u64,
    pub middle: u64,
    pub open: u64,
    pub dirty: u64,
    pub free: u64,
    pub available: u64,
}

/// A pool that is open. Any thread may call it. Each call waits for its answer.
///
/// Besides the errors that it names, each call returns `Ended`, `TimedOut`, `BadAnswer` or `Broken` if the process
/// doesn't answer, and `Forked` in a child of the process that opened the pool.
pub struct Pool {
    turns: Turns<Connection>,
    /// None once it was ended.
    server: Option<Server>,
    opened: Opened,
    opener: u32,
    /// Held by the thread that reads and changes the table of names.
    naming: Mutex<()>,
    /// None unless a hub has the pool.
    holds: Option<Holds>,
}

/// The turn of a thread that reads and changes the table of names. A hub lets no call of another program in between.
struct Turn<'a> {
    pool: &'a Pool,
    _naming: MutexGuard<'a, ()>,
}

impl Turn<'_> {
    /// Lets other programs in: a frame that doesn't hold the turn follows.
    fn let_others_in(&self) {
        if self.pool.holds.as_ref().map_or(false, |holds| holds.swap(false, Ordering::SeqCst)) {
            // If it isn't answered, the next call says so.
            let _ = self.pool.status();
        }
    }
}

impl Drop for Turn<'_> {
    fn drop(&mut self) {
        self.let_others_in();
    }
}

impl Pool {
    /// Opens the pool in a file by the process `program serve file`, with the options that `ztxg serve` takes if none
    /// are given.
    ///
    /// # Errors
    ///
    /// Those of [`Options::open`].
    pub fn open(program: impl AsRef<OsStr>, file: impl AsRef<OsStr>) -> Result<Pool, Error> {
        Options::new().open(program, file)
    }

    /// Opens the pool of a hub, `ztxg-hub`, that listens on a Unix socket, and that other programs use, too.
    ///
    /// # Errors
    ///
    /// Those of [`Options::open_socket`].
    pub fn open_socket(path: impl AsRef<Path>) -> Result<Pool, Error> {
        Options::new().open_socket(path)
    }

    /// Makes a pool of `size` bytes in a new file by `program create`. A file that is there is refused.
    ///
    /// # Errors
    ///
    /// Those of [`CreateOptions::create`].
    pub fn create(
        program: impl AsRef<OsStr>,
        file: impl AsRef<OsStr>,
        name: &str,
        guid: u64,
        size: u64,
    ) -> Result<(), Error> {
        CreateOptions::new().create(program, file, name, guid, size)
    }

    pub(crate) fn of_server(server: Server, opened: Opened) -> Pool {
        let turns = Turns::new(server.connection());
        let holds = server.holds();
        Pool { turns, server: Some(server), opened, opener: std::process::id(), naming: Mutex::new(()), holds }
    }

    /// What the open found.
    pub fn opened(&self) -> Opened {
        self.opened
    }

    /// Commits operations: all of them take place, or none. A power failure may lose them until a
    /// [`flush`](Pool::flush) or a [`sync`](Pool::sync).
    ///
    /// # Errors
    ///
    /// `Refused`, and nothing took place: by `BadRange` also if there are no operations.
    pub fn transact(&self, ops: &[Op<'_>]) -> Result<Receipt, Error> {
        self.ask(Request::Transact(record::record(ops)?))?.receipt()
    }

    /// Commits operations: all of them take place, or none. It returns once no power failure loses them.
    ///
    /// # Errors
    ///
    /// Those of [`transact`](Pool::transact); and `NotDurable`, but all of them took place.
    pub fn transact_durably(&self, ops: &[Op<'_>]) -> Result<Receipt, Error> {
        self.ask(Request::TransactDurably(record::record(ops)?))?.receipt()
    }

    /// Commits transactions in their order, each by itself, and returns what came of each: a refusal doesn't keep the
    /// next from being committed. They go in few frames.
    pub fn transact_many<'a, T: AsRef<[Op<'a>]>>(&self, transactions: &[T]) -> Vec<Result<Receipt, Error>> {
        self.ask_many(transactions, Request::Transact)
    }

    /// Commits transactions as [`transact_many`](Pool::transact_many) does. It returns once no power failure loses
    /// them; those of a frame share a flush.
    pub fn transact_many_durably<'a, T: AsRef<[Op<'a>]>>(&self, transactions: &[T]) -> Vec<Result<Receipt, Error>> {
        self.ask_many(transactions, Request::TransactDurably)
    }

    /// Writes bytes of any number to an object from an offset on, in their order, by a transaction for each 64,512 of
    /// them. Calls of other threads may come between. It returns once no power failure loses them.
    ///
    /// # Errors
    ///
    /// `BadRange` if the bytes end above [`MAX_LENGTH`]; those of [`transact`](Pool::transact) and
    /// [`flush`](Pool::flush). If bytes were committed before, `CutShort` says how many, and has the error.
    pub fn write_long(&self, object: u32, offset: u64, bytes: &[u8]) -> Result<(), Error> {
        record::check_end(offset, bytes).map_err(|cause| Error::out_of_bounds(Refusal::BadRange, cause))?;
        let mut committed = 0;
        while committed < bytes.len() {
            let at = offset + committed as u64;
            let left = &bytes[committed..];
            let (piece, _) = left.split_at(left.len().min((WRITE - at % WRITE) as usize));
            let written = self.transact(&[Op::Write { object, offset: at, bytes: piece }]);
            written.map_err(|error| error.after(committed))?;
            committed += piece.len();
        }
        self.flush().map_err(|error| error.after(committed))
    }

    /// The bytes of an object from `low` on, below `high` and below its length, at one moment. More than 1 MiB are read
    /// in several frames, and the calls of other threads wait for the last one.
    ///
    /// # Errors
    ///
    /// `NoObject`; `BadRange` unless `low < high` and `high` is at most [`MAX_LENGTH`].
    pub fn read(&self, object: u32, low: u64, high: u64) -> Result<Vec<u8>, Error> {
        let is_above = low < high && high > MAX_LENGTH;
        // The pool has to refuse a range above the limit, however short the object is.
        let low = if is_above { high - 1 } else { low };
        self.ask(Request::Read { object, low, high, read: Vec::new() })?.bytes()
    }

    /// The length of an object in bytes.
    ///
    /// # Errors
    ///
    /// `NoObject`.
    pub fn length(&self, object: u32) -> Result<u64, Error> {
        self.ask(Request::Length { object })?.number()
    }

    /// Which objects are there from `first` on, below `past`, by rising number.
    pub fn objects(&self, first: u32, past: u32) -> Result<Vec<Listed>, Error> {
        self.ask(Request::Objects { first, past })?.objects()
    }

    /// The groups, and what is charged and free.
    pub fn status(&self) -> Result<Status, Error> {
        self.ask(Request::Status)?.status()
    }

    /// Whether no power failure loses a transaction.
    pub fn durable(&self, receipt: Receipt) -> Result<bool, Error> {
        self.ask(Request::Durable(receipt))?.durable()
    }

    /// Makes durable what was committed so far, by the log.
    pub fn flush(&self) -> Result<(), Error> {
        self.ask(Request::Flush).map(drop)
    }

    /// Syncs the open group, and returns it: what was committed so far is durable, and no longer charged.
    pub fn sync(&self) -> Result<u64, Error> {
        self.ask(Request::Sync)?.number()
    }

    /// The pool's name.
    pub fn name(&self) -> Result<Vec<u8>, Error> {
        self.ask(Request::Name)?.bytes()
    }

    /// Gives the object of a name these bytes alone, and returns its number once no power failure loses them. If no
    /// object has the name one is made: it takes the lowest number from 1 on that is free.
    ///
    /// Names stand in object 0 (`docs/FORMATS.md`, "Names of objects"). A name has 1 to 254 bytes, and neither a control
    /// character nor `/`. The name and the first 64,512 bytes are committed by one transaction, and what is left by
    /// further ones.
    ///
    /// # Errors
    ///
    /// `BadRange` if the name is none, if the bytes are too many, or if object 0 is of another use, which is left as it
    /// is; `TooMany` if no number is left; those of [`transact`](Pool::transact). `CutShort` as of
    /// [`write_long`](Pool::write_long).
    pub fn put(&self, name: &str, bytes: &[u8]) -> Result<u32, Error> {
        check_name(name)?;
        record::check_end(0, bytes).map_err(|cause| Error::out_of_bounds(Refusal::BadRange, cause))?;
        let turn = self.naming()?;
        let (first, rest) = bytes.split_at(bytes.len().min(WRITE as usize));
        let object = self.put_first(name, first)?;
        turn.let_others_in();
        match self.write_long(object, WRITE, rest) {
            Ok(()) => Ok(object),
            Err(Error::CutShort { committed, error }) => Err(error.after(first.len() + committed as usize)),
            Err(error) => Err(error.after(first.len())),
        }
    }

    /// The bytes of the object of a name.
    ///
    /// # Errors
    ///
    /// `NoObject`; `BadRange` if the name is none, or object 0 of another use.
    pub fn get(&self, name: &str) -> Result<Vec<u8>, Error> {
        check_name(name)?;
        let _turn = self.naming()?;
        self.read(self.name_table()?.find(name)?, 0, MAX_LENGTH)
    }

    /// Removes the object of a name, and the name, by one transaction. It returns once no power failure undoes it.
    ///
    /// # Errors
    ///
    /// Those of [`get`](Pool::get) and [`transact_durably`](Pool::transact_durably).
    pub fn remove(&self, name: &str) -> Result<(), Error> {
        check_name(name)?;
        let _turn = self.naming()?;
        let change = self.name_table()?.change_for_removal(name, &self.objects(0, OBJECTS)?)?;
        self.transact_durably(&change.remove()).map(drop)
    }

    /// The numbers of the objects that have a name, by their names.
    ///
    /// # Errors
    ///
    /// `BadRange` if object 0 is of another use.
    pub fn names(&self) -> Result<BTreeMap<String, u32>, Error> {
        let _turn = self.naming()?;
        self.name_table().map(NameTable::into_names)
    }

    fn naming(&self) -> Result<Turn<'_>, Error> {
        self.test_opener()?;
        let naming = self.naming.lock().unwrap_or_else(PoisonError::into_inner);
        if let Some(holds) = &self.holds {
            holds.store(true, Ordering::SeqCst);
        }
        Ok(Turn { pool: self, _naming: naming })
    }

    fn name_table(&self) -> Result<NameTable, Error> {
        match self.read(0, 0, MAX_LENGTH) {
            Err(Error::Refused { refusal: Refusal::NoObject, .. }) => NameTable::read(&[]),
            read => NameTable::read(&read?),
        }
    }

    /// Commits the first piece of a put. If a transaction of another thread takes the number meanwhile, the next one is
    /// taken.
    fn put_first(&self, name: &str, first: &[u8]) -> Result<u32, Error> {
        loop {
            let objects = self.objects(0, OBJECTS)?;
            let change = self.name_table()?.change_for_put(name, &objects)?;
            match self.transact(&change.put(first)) {
                Ok(_) => return Ok(change.object()),
                Err(error) if error.refusal() != Some(Refusal::Exists) => return Err(error),
                Err(error) if self.objects(0, OBJECTS)? == objects => return Err(error),
                Err(_) => {}
            }
        }
    }

    /// Ends the process once it has synced the pool, and waits for its end. A drop does the same and tells no error. A
    /// hub goes on: what was committed is made durable, as by [`flush`](Pool::flush), and the connection is ended.
    ///
    /// # Errors
    ///
    /// Those of [`flush`](Pool::flush) if a hub has the pool.
    /// `BadEnd` if the process did not end with status 0. `TimedOut` if it did not end within the timeout of
    /// [`Options`], and was killed. `Forked` in a child of the process that opened the pool: nothing is ended then.
    pub fn close(mut self) -> Result<(), Error> {
        self.end()
    }

    fn end(&mut self) -> Result<(), Error> {
        let server = self.server.take();
        self.test_opener()?;
        let flushed = if self.holds.is_some() { self.turns.ask(Request::Flush).map(drop) } else { Ok(()) };
        let status = server.map_or(Ok(None), |mut server| server.end())?;
        flushed?;
        match status {
            Some(status) if !status.success() => Err(Error::BadEnd(status)),
            None if self.turns.found_the_end() => Err(Error::Ended),
            _ => Ok(()),
        }
    }

    fn ask(&self, request: Request) -> Result<Answer, Error> {
        self.test_opener()?;
        self.turns.ask(request)
    }

    fn ask_all(&self, requests: Vec<Request>) -> Vec<Outcome> {
        match self.test_opener() {
            Ok(()) => self.turns.ask_all(requests),
            Err(_) => requests.iter().map(|_| Err(Error::Forked)).collect(),
        }
    }

    /// Asks transactions in their order, as many at once as fit a frame. Those that are no record are not sent.
    fn ask_many<'a, T: AsRef<[Op<'a>]>>(
        &self,
        transactions: &[T],
        request: fn(Vec<u8>) -> Request,
    ) -> Vec<Result<Receipt, Error>> {
        let requests = transactions.iter().map(|ops| record::record(ops.as_ref()).map(request));
        let mut outcomes = Vec::with_capacity(transactions.len());
        let (mut batch, mut sizes) = (Vec::new(), Sizes::NONE);
        for request in requests {
            if let Ok(request) = &request {
                let more = sizes.with(request);
                let is_full = !more.fit();
                if is_full {
                    outcomes.extend(self.ask_batch(mem::take(&mut batch)));
                }
                sizes = if is_full { Sizes::NONE.with(request) } else { more };
            }
            batch.push(request);
        }
        outcomes.extend(self.ask_batch(batch));
        outcomes
    }

    fn ask_batch(&self, batch: Vec<Result<Request, Error>>) -> Vec<Result<Receipt, Error>> {
        let mut requests = Vec::with_capacity(batch.len());
        let unsent: Vec<_> = batch.into_iter().map(|request| request.map(|sent| requests.push(sent))).collect();
        let mut came = self.ask_all(requests).into_iter();
        let mut next = || came.next().unwrap_or(Err(Error::Broken))?.receipt();
        unsent.into_iter().map(|is_sent| is_sent.and_then(|()| next())).collect()
    }

    /// A child of the process that opened the pool has the socket too, and an answer goes to the one that reads first.
    /// This comes before each lock: another thread of the parent may have had it at the fork.
    fn test_opener(&self) -> Result<(), Error> {
        if self.opener == std::process::id() {
            Ok(())
        } else {
            Err(Error::Forked)
        }
    }
}

impl Drop for Pool {
    fn drop(&mut self) {
        if self.server.is_some() {
            let _ = self.end();
        }
    }
}

impl fmt::Debug for Pool {
    fn fmt(&self, f: &mut fmt::Formatter<'_>) -> fmt::Result {
        f.debug_struct("Pool").field("opened", &self.opened).finish_non_exhaustive()
    }
}
