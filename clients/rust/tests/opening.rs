//! Makes and opens pools in files of its own, by TOPZERAD_PROGRAM or the stand-in.

mod common;

use common::{new_path, new_pool, program, refusal, signal, text, SILENT, SIZE, WITH_PID};
use std::io::{ErrorKind, Write};
use std::os::unix::net::UnixListener;
use std::time::{Duration, Instant};
use topzerad::{CreateOptions, Error, Op, Opened, Options, Pool, Refusal};

/// The kind of the system's error of a file that can't be used.
fn kind<T>(came: Result<T, Error>) -> Option<ErrorKind> {
    match came {
        Err(Error::Unusable { source: Some(source), .. }) => Some(source.kind()),
        _ => None,
    }
}

#[test]
fn a_create_replaces_no_file_unless_it_is_told() {
    let path = new_path("made.pool");
    let create = |size| Pool::create(program(), &path, "tank", 77, size);
    assert_eq!(refusal(create(7_000_000)), Some(Refusal::BadGeometry));
    assert_eq!(refusal(Pool::create(program(), &path, "-1", 77, SIZE)), Some(Refusal::BadRange));
    assert!(!path.exists());
    create(SIZE).unwrap();
    assert_eq!(kind(create(SIZE)), Some(ErrorKind::AlreadyExists));
    let mut options = CreateOptions::new();
    options.replace(true).moment(1_700_000_000);
    options.create(program(), &path, "pond", 78, SIZE).unwrap();
    let pool = Pool::open(program(), &path).unwrap();
    assert_eq!((pool.opened().guid, pool.name().unwrap()), (78, b"pond".to_vec()));
    let came = options.create(program(), &path, "pond", 78, SIZE);
    assert!(text(came).ends_with("in use by another process or device"));
    assert_eq!(kind(options.create(program(), &path, "pond", 78, SIZE)), Some(ErrorKind::WouldBlock));
    pool.close().unwrap();
    assert!(matches!(Pool::create("/", &path, "tank", 77, SIZE), Err(Error::System(_))));
    assert!(matches!(Pool::create("false", &path, "tank", 77, SIZE), Err(Error::NotCreated { .. })));
}

/// What an open finds, and how many objects are there, once a process was killed behind a durable transaction and one
/// more.
fn found_after_a_kill(number: u32) -> (Opened, usize) {
    let path = new_pool(&format!("found {number}.pool"));
    let pool = Pool::open(WITH_PID, &path).unwrap();
    assert_eq!(pool.opened(), Opened { guid: 77, group: 8, records: 0 });
    pool.transact(&[Op::Create(1)]).unwrap();
    pool.transact_durably(&[Op::Create(2)]).unwrap();
    pool.transact(&[Op::Create(3)]).unwrap();
    signal("KILL", &path);
    assert!(matches!(pool.flush(), Err(Error::Ended)));
    assert!(matches!(pool.flush(), Err(Error::Ended)));
    assert!(matches!(pool.close(), Err(Error::BadEnd(_))));
    let pool = Pool::open(program(), &path).unwrap();
    let found = (pool.opened(), pool.objects(0, 9).unwrap().len());
    pool.close().unwrap();
    found
}

/// A process that is killed loses what wasn't durable. The next open replays the rest. On a busy machine the pool may be
/// synced before the signal comes: then nothing is left to replay, and it is done again.
#[test]
fn an_open_says_what_it_found() {
    let (found, objects) = (0..8).map(found_after_a_kill).find(|(found, _)| found.records > 0).unwrap();
    // Each import of the program syncs a group of its own; the stand-in's doesn't.
    assert!(found.guid == 77 && found.group >= 8 && found.records == 2, "{found:?}");
    assert_eq!(objects, 2);
}

#[test]
fn an_open_that_fails_says_why() {
    let path = new_pool("refused.pool");
    let missing = Pool::open(program(), new_path("missing.pool"));
    assert_eq!(text(missing), "the file can't be used: No such file or directory (os error 2)");
    assert_eq!(kind(Pool::open(program(), new_path("missing.pool"))), Some(ErrorKind::NotFound));
    let folder = Pool::open(program(), env!("CARGO_TARGET_TMPDIR"));
    assert!(matches!(folder, Err(Error::Unusable { cause, source: None }) if cause == "not a regular file"));
    assert_eq!(refusal(Options::new().dirty(4_095).open(program(), &path)), Some(Refusal::BadRange));
    assert_eq!(refusal(Options::new().cache(262_145).open(program(), &path)), Some(Refusal::BadRange));
    let too_long = Options::new().wait(Duration::from_millis(86_400_001)).open(program(), &path);
    assert!(text(too_long).ends_with("wait 86401: 0 to 86400 seconds"));
    let no_pool = new_path("zeros.pool");
    std::fs::File::create(&no_pool).unwrap().set_len(SIZE).unwrap();
    assert_eq!(refusal(Pool::open(program(), &no_pool)), Some(Refusal::NoPool));
    let mut options = Options::new();
    options.dirty(1 << 20).cache(16).moment(1_700_000_000).wait(Duration::from_millis(200));
    let pool = options.open(program(), &path).unwrap();
    assert_eq!(kind(Pool::open(program(), &path)), Some(ErrorKind::WouldBlock));
    let begun = Instant::now();
    assert_eq!(kind(options.open(program(), &path)), Some(ErrorKind::WouldBlock));
    assert!(begun.elapsed() > Duration::from_millis(900)); // a second is the least that the program waits
    pool.close().unwrap();
}

#[test]
fn a_program_that_is_no_server_is_told() {
    assert!(matches!(Pool::open("/", "-"), Err(Error::System(_))));
    let text = |program| text(Pool::open(program, "tank.pool"));
    assert_eq!(text("false"), "the process ended with exit status: 1 before it said whether the pool is open");
    assert_eq!(text("echo"), "the process answered what is no frame, or another call");
}

#[test]
fn a_program_that_says_nothing_is_ended() {
    let time = Duration::from_millis(300);
    assert!(matches!(Options::new().timeout(time).open(SILENT, "tank.pool"), Err(Error::TimedOut)));
    let came = CreateOptions::new().timeout(time).create(SILENT, "tank.pool", "tank", 77, SIZE);
    assert!(matches!(came, Err(Error::TimedOut)));
}

/// One that no hub listens on, and one that has something else.
#[test]
fn a_socket_without_a_hub_is_told() {
    let path = new_path("hub.socket");
    assert_eq!(kind(Pool::open_socket(&path)), Some(ErrorKind::NotFound));
    let listener = UnixListener::bind(&path).unwrap();
    let mut options = Options::new();
    options.timeout(Duration::from_millis(300));
    assert!(matches!(options.open_socket(&path), Err(Error::TimedOut)));
    assert_eq!(refusal(Options::new().dirty(4_096).open_socket(&path)), Some(Refusal::BadRange));
    assert_eq!(refusal(options.wait(Duration::from_secs(1)).open_socket(&path)), Some(Refusal::BadRange));
    drop(listener.accept().unwrap());
    let answers: [&[u8]; 2] = [b"", b"\x0c\0\0\0\x01\0\x02\0\0\0\0\0"];
    std::thread::scope(|scope| {
        scope.spawn(|| answers.iter().for_each(|bytes| listener.accept().unwrap().0.write_all(bytes).unwrap()));
        assert!(matches!(Pool::open_socket(&path), Err(Error::NoOpening(None))));
        assert!(matches!(Pool::open_socket(&path), Err(Error::BadAnswer)));
    });
    assert_eq!(kind(Pool::open_socket(new_pool("no socket.pool"))), Some(ErrorKind::ConnectionRefused));
}

/// The process is stopped, so that it doesn't answer. If it goes on, its late answer is read by the close: it is more
/// than the socket has room for.
#[test]
fn a_process_that_does_not_answer_is_left() {
    let path = new_pool("stopped.pool");
    let timeout = Duration::from_secs(4); // long for an answer on a busy machine
    let mut options = Options::new();
    // It may take longer to start than to answer.
    options.timeout(timeout).wait(Duration::from_secs(60));
    let pool = options.open(WITH_PID, &path).unwrap();
    pool.transact(&[Op::Create(1)]).unwrap();
    pool.write_long(1, 0, &vec![7; 1 << 20]).unwrap();
    signal("STOP", &path);
    assert!(matches!(pool.read(1, 0, 1 << 20), Err(Error::TimedOut)));
    signal("CONT", &path);
    assert!(matches!(pool.length(1), Err(Error::Broken)));
    pool.close().unwrap();
    let pool = options.open(WITH_PID, &path).unwrap();
    signal("STOP", &path);
    let begun = Instant::now();
    assert!(matches!(pool.flush(), Err(Error::TimedOut)));
    assert!(begun.elapsed() >= timeout);
    assert!(matches!(pool.transact_many(&[[Op::Create(2)]])[..], [Err(Error::Broken)]));
    assert!(matches!(pool.close(), Err(Error::TimedOut)));
    let pool = options.open(WITH_PID, &path).unwrap();
    signal("STOP", &path);
    drop(pool); // it ends the process, too: the file is free
    assert_eq!(Pool::open(program(), &path).unwrap().length(1).unwrap(), 1 << 20);
}
