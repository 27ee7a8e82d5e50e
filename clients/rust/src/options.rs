//! How a pool is opened and made: the options of `ztxg serve` and `ztxg create`.

use crate::server::{self, Server};
use crate::{Error, Pool, Refusal};
use std::ffi::OsStr;
use std::io;
use std::path::Path;
use std::process::{Command, ExitStatus};
use std::time::Duration;

/// The most seconds that the program waits for a file.
const LONGEST_WAIT: u64 = 86_400;

/// How a pool is opened. What isn't given is what `ztxg serve` takes then.
///
/// ```no_run
/// use std::time::Duration;
/// use topzerad::Options;
///
/// # fn main() -> Result<(), topzerad::Error> {
/// let pool = Options::new().dirty(64 << 20).timeout(Duration::from_secs(30)).open("ztxg", "tank.pool")?;
/// # pool.close()
/// # }
/// ```
#[derive(Clone, Debug, Default)]
pub struct Options {
    dirty: Option<u64>,
    cache: Option<u64>,
    moment: Option<u64>,
    wait: Duration,
    timeout: Option<Duration>,
}

impl Options {
    pub fn new() -> Options {
        Options::default()
    }

    /// The dirty limit in bytes: how much unsynced transactions may be charged. 4,096 to 2^40.
    pub fn dirty(&mut self, bytes: u64) -> &mut Options {
        self.dirty = Some(bytes);
        self
    }

    /// The most tree blocks in the cache, and the most that syncs wrote beside it. 1 to 262,144.
    pub fn cache(&mut self, blocks: u64) -> &mut Options {
        self.cache = Some(blocks);
        self
    }

    /// A time in seconds that the pool stores with each group.
    pub fn moment(&mut self, seconds: u64) -> &mut Options {
        self.moment = Some(seconds);
        self
    }

    /// How long the open waits while another process has the file, in whole seconds, up to a day.
    pub fn wait(&mut self, time: Duration) -> &mut Options {
        self.wait = time;
        self
    }

    /// How long the process may take to open the pool, to answer a frame, and to end. There is no limit if none is
    /// given. The open may take the time of [`wait`](Options::wait) besides.
    ///
    /// An answer that doesn't come in time may come later, so each later call returns `Broken`. A close that ends the
    /// process by a signal loses nothing that was durable.
    pub fn timeout(&mut self, time: Duration) -> &mut Options {
        self.timeout = Some(time);
        self
    }

    /// Starts the process `program serve file`, and waits until it has opened the pool.
    ///
    /// # Errors
    ///
    /// `Unusable` if the file isn't there, may not be used, or another process has it. `Refused` if it has no whole
    /// pool, or an option is out of bounds (`BadRange`). `NoOpening` and `BadAnswer` if the program is no `ztxg` of
    /// this version. `TimedOut`. `System` if it can't be started.
    pub fn open(&self, program: impl AsRef<OsStr>, file: impl AsRef<OsStr>) -> Result<Pool, Error> {
        let mut command = Command::new(program);
        command.arg("serve");
        add_number(&mut command, "--dirty", self.dirty);
        add_number(&mut command, "--cache", self.cache);
        add_number(&mut command, "--moment", self.moment);
        add_number(&mut command, "--wait", seconds_of(self.wait)?);
        command.arg("--").arg(file);
        let mut server = Server::start(command, self.timeout).map_err(Error::System)?;
        let opened = server.read_opening(self.wait)?;
        Ok(Pool::of_server(server, opened))
    }

    /// Opens the pool of a hub, `ztxg-hub`, that listens on a Unix socket. The timeout is the only option.
    ///
    /// # Errors
    ///
    /// `Unusable` if there is no hub, or if it doesn't let the caller in (`PermissionDenied`) or has as many clients as
    /// it may have (`WouldBlock`). `Refused` by `BadRange` for another option. `NoOpening`, `BadAnswer`, `TimedOut`.
    pub fn open_socket(&self, path: impl AsRef<Path>) -> Result<Pool, Error> {
        if self.dirty.is_some() || self.cache.is_some() || self.moment.is_some() || !self.wait.is_zero() {
            let cause = "of a pool that a hub has the timeout alone can be set".to_owned();
            return Err(Error::out_of_bounds(Refusal::BadRange, cause));
        }
        let mut server = Server::connect(path.as_ref().to_owned(), self.timeout)?;
        let opened = server.read_opening(Duration::ZERO)?;
        Ok(Pool::of_server(server, opened))
    }
}

/// How a pool is made. What isn't given is what `ztxg create` takes then.
#[derive(Clone, Debug, Default)]
pub struct CreateOptions {
    replace: bool,
    moment: Option<u64>,
    wait: Duration,
    timeout: Option<Duration>,
}

impl CreateOptions {
    pub fn new() -> CreateOptions {
        CreateOptions::default()
    }

    /// Whether a file that is there is replaced, with all that it has. It is not if this isn't given.
    pub fn replace(&mut self, is_replaced: bool) -> &mut CreateOptions {
        self.replace = is_replaced;
        self
    }

    /// A time in seconds that the pool stores with its first group.
    pub fn moment(&mut self, seconds: u64) -> &mut CreateOptions {
        self.moment = Some(seconds);
        self
    }

    /// How long the create waits while another process has the file, in whole seconds, up to a day.
    pub fn wait(&mut self, time: Duration) -> &mut CreateOptions {
        self.wait = time;
        self
    }

    /// How long the program may take, besides the time of [`wait`](CreateOptions::wait). There is no limit if none is
    /// given.
    pub fn timeout(&mut self, time: Duration) -> &mut CreateOptions {
        self.timeout = Some(time);
        self
    }

    /// Runs `program create file name guid size`, and waits for its end.
    ///
    /// # Errors
    ///
    /// `Unusable` if the file is there already and not replaced, or can't be used. `Refused` by `BadGeometry` if no
    /// pool may have the size, and by `BadRange` for the name. `NotCreated` if the program is no `ztxg`. `TimedOut`:
    /// the program was killed, and the file may be there without a pool. `System` if it can't be started.
    pub fn create(
        &self,
        program: impl AsRef<OsStr>,
        file: impl AsRef<OsStr>,
        name: &str,
        guid: u64,
        size: u64,
    ) -> Result<(), Error> {
        let mut command = Command::new(program);
        command.arg("create");
        if !self.replace {
            command.arg("--new");
        }
        add_number(&mut command, "--moment", self.moment);
        add_number(&mut command, "--wait", seconds_of(self.wait)?);
        command.arg("--").arg(file).arg(name).arg(guid.to_string()).arg(size.to_string());
        let time = self.timeout.map(|timeout| timeout.saturating_add(self.wait));
        let (status, text) = server::run(command, time)?;
        judge(status, text)
    }
}

fn add_number(command: &mut Command, option: &str, value: Option<u64>) {
    if let Some(value) = value {
        command.arg(option).arg(value.to_string());
    }
}

/// The program takes whole seconds, and 0 if none are given.
fn seconds_of(time: Duration) -> Result<Option<u64>, Error> {
    let seconds = time.as_secs().saturating_add(u64::from(time.subsec_nanos() > 0));
    if seconds > LONGEST_WAIT {
        let cause = format!("wait {seconds}: 0 to {LONGEST_WAIT} seconds");
        return Err(Error::out_of_bounds(Refusal::BadRange, cause));
    }
    Ok((seconds > 0).then_some(seconds))
}

/// What a `create` says by its status and its text: `docs/COMMANDS.md`.
fn judge(status: Option<ExitStatus>, text: String) -> Result<(), Error> {
    let is_done = status.map_or_else(|| text.starts_with("created "), |status| status.success());
    if is_done {
        return Ok(());
    }
    let cause = text.lines().rev().find_map(|line| line.strip_prefix("ztxg: cause: ")).map(str::to_owned);
    let first = text.lines().find_map(|line| line.strip_prefix("ztxg: ")).unwrap_or_default();
    if let Some(refusal) = first.strip_prefix("refused ").and_then(read_refusal) {
        return Err(Error::Refused { refusal, cause });
    }
    if first.starts_with("cannot use ") {
        let source = cause.as_deref().and_then(error_of);
        return Err(Error::Unusable { cause: cause.unwrap_or_else(|| "no cause is known".to_owned()), source });
    }
    Err(Error::NotCreated { status, text })
}

/// The refusal of `N NAME`, and of `7 Damaged KIND ADDRESS`.
fn read_refusal(words: &str) -> Option<Refusal> {
    let mut numbers = words.split(' ').filter_map(|word| word.parse::<u64>().ok());
    let number = u32::try_from(numbers.next()?).ok()?;
    Refusal::of_number(number, numbers.next().unwrap_or(0), numbers.next().unwrap_or(0))
}

/// The error of the system that a cause ends with.
fn error_of(cause: &str) -> Option<io::Error> {
    if cause == "in use by another process or device" {
        return Some(io::ErrorKind::WouldBlock.into());
    }
    let (_, number) = cause.strip_suffix(')')?.rsplit_once("(os error ")?;
    number.parse().ok().map(io::Error::from_raw_os_error)
}
