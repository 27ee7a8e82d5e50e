//! Makes each call on a pool without objects that is named tank: that of the hub on TOPZERAD_SOCKET, or in TOPZERAD_FILE
//! by TOPZERAD_PROGRAM, or by the stand-in in memory.

mod common;

use common::{program, refusal, text};
use topzerad::{Error, Listed, Op, Pool, Refusal, MAX_LENGTH, OBJECTS};

fn open() -> Pool {
    if let Some(socket) = std::env::var_os("TOPZERAD_SOCKET") {
        return Pool::open_socket(socket).unwrap();
    }
    let file = std::env::var_os("TOPZERAD_FILE").unwrap_or_else(|| "-".into());
    Pool::open(program(), file).unwrap()
}

/// What is above a limit is refused with its value, and a value at the limit is not.
fn keep_limits(pool: &Pool) {
    let long = vec![7; 65_498];
    let write = |bytes| [Op::Write { object: 3, offset: 0, bytes }];
    assert_eq!(refusal(pool.transact(&[])), Some(Refusal::BadRange));
    let came = pool.transact(&write(&long));
    assert_eq!(refusal(came), Some(Refusal::TooLarge));
    pool.transact(&write(&long[1..])).unwrap();
    assert_eq!(pool.read(3, 0, MAX_LENGTH).unwrap(), long[1..]);
    let last = Op::Write { object: 3, offset: MAX_LENGTH - 1, bytes: b"z" };
    pool.transact(&[Op::Create(OBJECTS - 1), last, Op::SetName(&[b'n'; 64]), Op::Remove(OBJECTS - 1)]).unwrap();
    pool.transact(&[Op::SetLength { object: 3, length: 7 }, Op::SetName(b"pond")]).unwrap();
    for (op, cause) in [
        (Op::Create(5_292), "object 5292: numbers go to 5291"),
        (Op::Write { object: 3, offset: 0, bytes: b"" }, "a write of no bytes: 1 at least"),
        (
            Op::Write { object: 3, offset: MAX_LENGTH, bytes: b"z" },
            "the bytes end at 28449793: an object has at most 28449792",
        ),
        (
            Op::SetLength { object: 3, length: u64::MAX },
            "length 18446744073709551615: an object has at most 28449792 bytes",
        ),
        (Op::SetName(b"1x"), "name \"1x\": 1 to 64 bytes, first a letter, then letters, digits, - _ ."),
    ] {
        let came = pool.transact_durably(&[op]);
        assert_eq!(text(came), format!("a number, a range, a plan, a name or a limit is out of bounds: {cause}"));
    }
}

/// More than go in one frame. The second one is refused by the pool, and the third one before it is sent.
fn commit_many_at_once(pool: &Pool) {
    let bytes = [9; 65_000];
    let write = |at: u64| vec![Op::Write { object: 50, offset: 65_000 * at, bytes: &bytes }];
    let mut transactions = vec![vec![Op::Create(50)], vec![Op::Create(50)], vec![Op::Create(OBJECTS)]];
    transactions.extend((0..70).map(write));
    let outcomes = pool.transact_many_durably(&transactions);
    let receipts: Vec<_> = outcomes.iter().filter_map(|outcome| outcome.as_ref().ok()).collect();
    assert_eq!((outcomes.len(), receipts.len()), (73, 71));
    assert!(receipts.windows(2).all(|pair| pair[0].ordinal + 1 == pair[1].ordinal));
    assert!(receipts.iter().all(|receipt| pool.durable(**receipt).unwrap()));
    let mut refused = outcomes.into_iter().filter_map(refusal);
    assert_eq!((refused.next(), refused.next()), (Some(Refusal::Exists), Some(Refusal::BadRange)));
    assert_eq!(pool.length(50).unwrap(), 70 * 65_000);
    assert!(pool.transact_many::<Vec<Op<'_>>>(&[]).is_empty());
}

/// The object goes while it is written, so a piece is refused. If all was written before, it is tried again.
fn write_in_part(pool: &Pool) {
    let bytes = vec![1; 20_000_000];
    let write_and_remove = || {
        pool.transact(&[Op::Create(60)]).unwrap();
        std::thread::scope(|scope| {
            let writer = scope.spawn(|| pool.write_long(60, 1, &bytes));
            while pool.length(60).unwrap() == 0 {}
            pool.transact(&[Op::Remove(60)]).unwrap();
            writer.join().unwrap().err()
        })
    };
    match (0..20).find_map(|_| write_and_remove()) {
        Some(Error::CutShort { committed, error }) => {
            assert_eq!(committed % 64_512, 64_511);
            assert_eq!(error.refusal(), Some(Refusal::NoObject));
        }
        other => panic!("{other:?}"),
    }
    assert_eq!(refusal(pool.write_long(60, 1, &bytes)), Some(Refusal::NoObject));
    assert_eq!(refusal(pool.write_long(3, MAX_LENGTH - 19_999_999, &bytes)), Some(Refusal::BadRange));
}

/// Several threads, each with an object of its own.
fn commit_by_threads(pool: &Pool) {
    std::thread::scope(|scope| {
        for object in 100..104 {
            scope.spawn(move || {
                pool.transact(&[Op::Create(object)]).unwrap();
                for at in 0..50_u8 {
                    pool.transact_durably(&[Op::Write { object, offset: at.into(), bytes: &[at] }]).unwrap();
                }
            });
        }
    });
    let expected: Vec<u8> = (0..50).collect();
    for object in 100..104 {
        assert_eq!(pool.read(object, 0, MAX_LENGTH).unwrap(), expected);
    }
}

/// An object of five million bytes, whose reads take several frames.
fn read_long_object(pool: &Pool) {
    const PIECE: usize = 1 << 20;
    let content: Vec<u8> = (0..5_000_000_u64).map(|at| (at * at % 251) as u8).collect();
    pool.transact(&[Op::Create(200)]).unwrap();
    pool.write_long(200, 0, &content).unwrap();
    pool.write_long(200, 64_511, &content[64_511..200_000]).unwrap();
    assert_eq!(pool.length(200).unwrap(), 5_000_000);
    let read = |low: usize, high: usize| pool.read(200, low as u64, high as u64).unwrap();
    assert!(read(0, MAX_LENGTH as usize) == content);
    for (low, high) in [(3, 4_999_998), (PIECE - 1, PIECE + 1), (PIECE, 2 * PIECE), (1, 2 * PIECE + 2)] {
        assert!(read(low, high) == content[low..high]);
    }
    assert!(read(5_000_000, MAX_LENGTH as usize).is_empty());
    pool.transact(&[Op::SetLength { object: 200, length: 2 * PIECE as u64 }]).unwrap();
    assert!(read(0, MAX_LENGTH as usize) == content[..2 * PIECE]);
    assert_eq!(refusal(pool.read(200, 0, MAX_LENGTH + 1)), Some(Refusal::BadRange));
    assert_eq!(refusal(pool.read(201, 0, MAX_LENGTH)), Some(Refusal::NoObject));
}

/// A thread writes the first and the last byte of an object at once, while another reads all of it.
fn read_at_one_moment(pool: &Pool) {
    let length = 3 << 20;
    pool.transact(&[Op::Create(300), Op::SetLength { object: 300, length }]).unwrap();
    std::thread::scope(|scope| {
        let writer = scope.spawn(move || {
            for at in 1..100_u8 {
                let write = |offset| Op::Write { object: 300, offset, bytes: std::slice::from_ref(&at) };
                pool.transact(&[write(0), write(length - 1)]).unwrap();
            }
        });
        while !writer.is_finished() {
            let bytes = pool.read(300, 0, MAX_LENGTH).unwrap();
            assert_eq!(bytes.first(), bytes.last());
        }
    });
    assert_eq!(pool.read(300, length - 1, length).unwrap(), [99]);
}

#[test]
fn each_call_is_answered() {
    let pool = open();
    assert_eq!(pool.name().unwrap(), b"tank");
    assert_eq!(refusal(pool.length(1)), Some(Refusal::NoObject));
    let first = pool.transact_durably(&[Op::Create(1), Op::Write { object: 1, offset: 100, bytes: b"wxyz" }]).unwrap();
    assert!(pool.durable(first).unwrap());
    assert_eq!(refusal(pool.transact(&[Op::Create(2), Op::Create(1)])), Some(Refusal::Exists));
    assert_eq!(pool.read(1, 98, 200).unwrap(), b"\0\0wxyz");
    assert_eq!(refusal(pool.read(1, 5, 5)), Some(Refusal::BadRange));
    let second = pool.transact(&[Op::Create(3), Op::SetLength { object: 3, length: 7 }]).unwrap();
    assert_eq!(second.ordinal, first.ordinal + 1);
    pool.flush().unwrap();
    assert!(pool.durable(second).unwrap());
    let expected = [Listed { object: 1, length: 104 }, Listed { object: 3, length: 7 }];
    assert_eq!(pool.objects(0, OBJECTS).unwrap(), expected);
    pool.transact(&[Op::Remove(1), Op::SetName(b"pond")]).unwrap();
    assert_eq!((pool.name().unwrap(), pool.length(3).unwrap()), (b"pond".to_vec(), 7));
    assert_eq!(pool.sync().unwrap(), pool.status().unwrap().synced);
    keep_limits(&pool);
    commit_many_at_once(&pool);
    write_in_part(&pool);
    commit_by_threads(&pool);
    read_long_object(&pool);
    read_at_one_moment(&pool);
    pool.close().unwrap();
}
