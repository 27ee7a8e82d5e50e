//! The process that has a pool, one of its own or a hub that others share, and the socket between it and this one.

use crate::error::Broken;
use crate::frames::{self, Outcome, Request};
use crate::turns::Exchange;
use crate::{Error, Opened};
use std::io::{self, Read, Write};
use std::net::Shutdown;
use std::os::unix::io::OwnedFd;
use std::os::unix::net::UnixStream;
use std::path::PathBuf;
use std::process::{Child, Command, ExitStatus, Stdio};
use std::sync::atomic::{AtomicBool, Ordering};
use std::sync::{mpsc, Arc};
use std::thread;
use std::time::{Duration, Instant};

/// What `waitpid` says of a child if the caller ignores SIGCHLD: the child has ended, and its status isn't known.
const ECHILD: i32 = 10;
/// How long a process may take to end if its pool isn't open.
const GRACE: Duration = Duration::from_secs(1);
/// How long a wait for the end of a process sleeps before it looks again: at first, and at most.
const FIRST_SLEEP: Duration = Duration::from_millis(1);
const LONGEST_SLEEP: Duration = Duration::from_millis(20);

/// Whether a hub lets no call of another program come before the next frame.
pub(crate) type Holds = Arc<AtomicBool>;

/// A process `PROGRAM serve FILE`, or a hub, which isn't ended here.
pub(crate) struct Server {
    process: Option<Child>,
    stream: Arc<UnixStream>,
    timeout: Option<Duration>,
    /// None unless a hub has the pool.
    holds: Option<Holds>,
}

impl Server {
    /// Starts a process, with the other end of the socket as its input and its output.
    pub(crate) fn start(mut command: Command, timeout: Option<Duration>) -> io::Result<Server> {
        let (ours, theirs) = UnixStream::pair()?;
        command.stdin(OwnedFd::from(theirs.try_clone()?)).stdout(OwnedFd::from(theirs));
        // The command has the other end until it is dropped, which is before the first read.
        Ok(Server { process: Some(command.spawn()?), stream: Arc::new(ours), timeout, holds: None })
    }

    /// Connects to a hub.
    pub(crate) fn connect(path: PathBuf, timeout: Option<Duration>) -> Result<Server, Error> {
        let stream = match timeout {
            None => UnixStream::connect(path),
            Some(time) => {
                // A connect blocks while too many wait for the hub. So another thread makes it.
                let (done, wait) = mpsc::channel();
                thread::spawn(move || done.send(UnixStream::connect(path)));
                wait.recv_timeout(time).map_err(|_| Error::TimedOut)?
            }
        };
        let unusable = |source: io::Error| Error::Unusable { cause: source.to_string(), source: Some(source) };
        let stream = Arc::new(stream.map_err(unusable)?);
        Ok(Server { process: None, stream, timeout, holds: Some(Holds::default()) })
    }

    /// What tells a hub to let no other program in; None if none has the pool.
    pub(crate) fn holds(&self) -> Option<Holds> {
        self.holds.clone()
    }

    /// Reads what the process says first. It may wait so long for the file besides. If no pool is open, it is ended.
    pub(crate) fn read_opening(&mut self, wait: Duration) -> Result<Opened, Error> {
        let deadline = self.timeout.and_then(|timeout| deadline_in(timeout.saturating_add(wait)));
        match frames::read_opening(&mut Timed { stream: &self.stream, deadline }) {
            Ok(Ok(opened)) => Ok(opened),
            Ok(Err(error)) => {
                // How it ended adds nothing to why no pool is open.
                let _ = self.end_by(deadline_in(GRACE));
                Err(error)
            }
            Err(Broken::Ended) => Err(Error::NoOpening(self.end_by(deadline_in(GRACE)).unwrap_or(None))),
            Err(broken) => {
                self.process.as_mut().map_or(Ok(()), kill)?;
                Err(broken.of_asked())
            }
        }
    }

    pub(crate) fn connection(&self) -> Connection {
        Connection {
            stream: Arc::clone(&self.stream),
            timeout: self.timeout,
            holds: self.holds.clone(),
            next_number: 0,
        }
    }

    /// Ends the input of the process, and waits for its end. After the timeout it is killed. Of a hub the connection is
    /// ended.
    pub(crate) fn end(&mut self) -> Result<Option<ExitStatus>, Error> {
        self.end_by(self.timeout.and_then(deadline_in))
    }

    fn end_by(&mut self, deadline: Option<Instant>) -> Result<Option<ExitStatus>, Error> {
        // It fails if the process is gone, as its status says.
        let _ = self.stream.shutdown(Shutdown::Write);
        let process = match &mut self.process {
            Some(process) => process,
            None => return Ok(None),
        };
        // The process waits until an answer that was cut off is read.
        let _ = io::copy(&mut Timed { stream: &self.stream, deadline }, &mut io::sink());
        wait(process, deadline)
    }
}

/// Runs a command, and returns its status and all that it printed, by one socket for both of its streams. It is killed
/// after the time.
pub(crate) fn run(mut command: Command, time: Option<Duration>) -> Result<(Option<ExitStatus>, String), Error> {
    let deadline = time.and_then(deadline_in);
    let (ours, theirs) = UnixStream::pair().map_err(Error::System)?;
    let other = theirs.try_clone().map_err(Error::System)?;
    command.stdin(Stdio::null()).stdout(OwnedFd::from(other)).stderr(OwnedFd::from(theirs));
    let mut process = command.spawn().map_err(Error::System)?;
    drop(command); // it has the other end, so that the text would never end
    let mut text = Vec::new();
    let read = Timed { stream: &ours, deadline }.read_to_end(&mut text);
    let status = wait(&mut process, deadline)?;
    read.map_err(Error::System)?;
    Ok((status, String::from_utf8_lossy(&text).into_owned()))
}

/// Waits for the end of a process, and kills it at the deadline. Its status isn't known if the caller ignores SIGCHLD.
fn wait(process: &mut Child, deadline: Option<Instant>) -> Result<Option<ExitStatus>, Error> {
    let deadline = match deadline {
        Some(deadline) => deadline,
        None => return status_of(process.wait().map(Some)),
    };
    let mut sleep = FIRST_SLEEP;
    loop {
        match process.try_wait() {
            Ok(None) if Instant::now() >= deadline => {
                kill(process)?;
                return Err(Error::TimedOut);
            }
            Ok(None) => {}
            ended => return status_of(ended),
        }
        thread::sleep(sleep);
        sleep = LONGEST_SLEEP.min(2 * sleep);
    }
}

fn kill(process: &mut Child) -> Result<(), Error> {
    // Only a process that wasn't waited for has this number for certain.
    if let Ok(None) = process.try_wait() {
        process.kill().map_err(Error::System)?;
    }
    wait(process, None).map(drop)
}

fn status_of(waited: io::Result<Option<ExitStatus>>) -> Result<Option<ExitStatus>, Error> {
    match waited {
        Err(error) if error.raw_os_error() == Some(ECHILD) => Ok(None),
        waited => waited.map_err(Error::System),
    }
}

/// None for a moment that is too far away for a clock.
fn deadline_in(time: Duration) -> Option<Instant> {
    Instant::now().checked_add(time)
}

/// Asks the process by frames.
pub(crate) struct Connection {
    stream: Arc<UnixStream>,
    timeout: Option<Duration>,
    holds: Option<Holds>,
    next_number: u64,
}

impl Connection {
    /// The kind of a frame. A process that no other program shares needs to hold nothing.
    fn kind_of(&self, requests: &[&Request]) -> u16 {
        match &self.holds {
            None => frames::REQUESTS,
            Some(holds) if holds.load(Ordering::SeqCst) => frames::HOLDING,
            Some(_) if requests.last().map_or(false, |last| last.goes_on()) => frames::READING_ON,
            Some(_) => frames::REQUESTS,
        }
    }
}

impl Exchange for Connection {
    fn ask(&mut self, requests: &[&Request]) -> Result<Vec<Outcome>, Broken> {
        let first = self.next_number;
        self.next_number += requests.len() as u64;
        let mut timed = Timed { stream: &self.stream, deadline: self.timeout.and_then(deadline_in) };
        timed.write_all(&frames::requests_frame(self.kind_of(requests), first, requests))?;
        frames::read_answers(&mut timed, first, requests)
    }
}

/// A socket whose reads and writes end at a deadline.
struct Timed<'a> {
    stream: &'a UnixStream,
    deadline: Option<Instant>,
}

impl Timed<'_> {
    /// The time that is left, if there is a deadline.
    fn left(&self) -> io::Result<Option<Duration>> {
        let left = self.deadline.map(|deadline| deadline.saturating_duration_since(Instant::now()));
        match left {
            Some(Duration::ZERO) => Err(io::ErrorKind::TimedOut.into()),
            left => Ok(left),
        }
    }
}

impl Read for Timed<'_> {
    fn read(&mut self, into: &mut [u8]) -> io::Result<usize> {
        if let Some(left) = self.left()? {
            self.stream.set_read_timeout(Some(left))?;
        }
        self.stream.read(into)
    }
}

impl Write for Timed<'_> {
    fn write(&mut self, from: &[u8]) -> io::Result<usize> {
        if let Some(left) = self.left()? {
            self.stream.set_write_timeout(Some(left))?;
        }
        self.stream.write(from)
    }

    fn flush(&mut self) -> io::Result<()> {
        self.stream.flush()
    }
}
