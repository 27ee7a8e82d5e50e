//! What a process may do to its children: a fork, and no wait for them. One test, since both are of the whole process.

mod common;

use common::{new_pool, program, signal, WITH_PID};
use topzerad::{Error, Op, Pool};

extern "C" {
    fn fork() -> i32;
    fn waitpid(process: i32, status: *mut i32, options: i32) -> i32;
    fn _exit(status: i32) -> !;
    #[link_name = "signal"]
    fn set_action(signal: i32, action: usize) -> usize;
}

const SIGCHLD: i32 = 17;
const IGNORE: usize = 1;

#[test]
fn a_child_is_refused_and_an_ignored_end_is_a_good_one() {
    let path = new_pool("parent.pool");
    let pool = Pool::open(program(), &path).unwrap();
    // SAFETY: the child makes calls that wait for no other thread, and ends.
    let child = unsafe { fork() };
    if child == 0 {
        let is_refused = matches!(pool.transact(&[Op::Create(1)]), Err(Error::Forked));
        let is_closed = matches!(pool.close(), Err(Error::Forked));
        // SAFETY: it ends the child.
        unsafe { _exit(i32::from(!(is_refused && is_closed))) }
    }
    let mut status = -1;
    // SAFETY: the status is there to be written.
    assert_eq!(unsafe { waitpid(child, &mut status, 0) }, child);
    assert_eq!(status, 0);
    pool.transact(&[Op::Create(1)]).unwrap();
    // SAFETY: no code runs at the signal.
    unsafe { set_action(SIGCHLD, IGNORE) };
    pool.close().unwrap();
    let path = new_pool("ignored.pool");
    assert!(matches!(Pool::open("false", &path), Err(Error::NoOpening(None))));
    assert!(matches!(Pool::create(program(), &path, "tank", 77, 8 << 20), Err(Error::Unusable { .. })));
    let pool = Pool::open(WITH_PID, &path).unwrap();
    signal("KILL", &path);
    assert!(matches!(pool.flush(), Err(Error::Ended)));
    assert!(matches!(pool.close(), Err(Error::Ended)));
}
