//! Objects by name, on pools of their own.

mod common;

use common::{new_pool, program, refusal, text};
use topzerad::{Listed, Op, Pool, Refusal, OBJECTS};

fn open(name: &str) -> Pool {
    Pool::open(program(), new_pool(name)).unwrap()
}

/// Gives object 0 these bytes alone.
fn replace(pool: &Pool, bytes: &[u8]) {
    pool.transact(&[Op::SetLength { object: 0, length: 0 }]).unwrap();
    pool.write_long(0, 0, bytes).unwrap();
}

#[test]
fn objects_have_names() {
    let pool = open("names.pool");
    assert!(pool.names().unwrap().is_empty());
    assert_eq!(refusal(pool.get("report.pdf")), Some(Refusal::NoObject));
    assert_eq!(pool.put("report.pdf", b"one").unwrap(), 1);
    assert_eq!(pool.objects(0, 9).unwrap(), [Listed { object: 0, length: 512 }, Listed { object: 1, length: 3 }]);
    pool.transact(&[Op::Create(2)]).unwrap();
    assert_eq!((pool.put("b c", b"").unwrap(), pool.put("ä€😀", b"4").unwrap()), (3, 4));
    assert_eq!((pool.put("report.pdf", b"2").unwrap(), pool.get("report.pdf").unwrap()), (1, b"2".to_vec()));
    pool.remove("b c").unwrap();
    assert_eq!(text(pool.get("b c")), "there is no such object: no object has the name \"b c\"");
    let long: Vec<u8> = (0..200_000_u32).map(|at| (at % 251) as u8).collect();
    assert_eq!((pool.put("after", &long).unwrap(), pool.get("after").unwrap() == long), (3, true));
    pool.transact(&[Op::Remove(1)]).unwrap();
    assert_eq!(refusal(pool.get("report.pdf")), Some(Refusal::NoObject));
    assert_eq!((pool.put("report.pdf", b"again").unwrap(), pool.get("report.pdf").unwrap()), (1, b"again".to_vec()));
    pool.transact(&[Op::Remove(1)]).unwrap();
    pool.remove("report.pdf").unwrap();
    let names: Vec<_> = pool.names().unwrap().into_iter().collect();
    assert_eq!(names, [("after".to_owned(), 3), ("ä€😀".to_owned(), 4)]);
    pool.close().unwrap();
}

#[test]
fn what_is_no_name_is_refused() {
    let pool = open("no_names.pool");
    for name in ["", "a/b", "a\0", "\n", "\u{7f}", "\u{85}", &"x".repeat(255), &"ä".repeat(128)] {
        assert_eq!(refusal(pool.put(name, b"1")), Some(Refusal::BadRange));
    }
    assert!(pool.objects(0, OBJECTS).unwrap().is_empty());
    assert_eq!((pool.put(&"x".repeat(254), b"1").unwrap(), pool.put(&"ä".repeat(127), b"2").unwrap()), (1, 2));
    assert_eq!(pool.get(&"ä".repeat(127)).unwrap(), b"2");
}

#[test]
fn an_object_0_of_another_use_stays() {
    let pool = open("foreign.pool");
    pool.put("one", b"1").unwrap();
    pool.put("two", b"2").unwrap();
    let good = pool.read(0, 0, 1_000).unwrap();
    let with = |tail: &[u8]| [good.as_slice(), tail].concat();
    let bad = [
        b"a".to_vec(),
        vec![0; 256],
        good[..767].to_vec(),
        with(b"\0"),
        with(&good[256..512]),
        with(&[b"\xff\0".as_slice(), &[0; 254]].concat()),
        with(&[b"\x01\0/".as_slice(), &[0; 253]].concat()),
        with(&[b"\x01\0\xff".as_slice(), &[0; 253]].concat()),
        with(&[b"\0\x01".as_slice(), &[0; 254]].concat()),
        with(&vec![0; 256 * (OBJECTS as usize - 2)]),
    ];
    for bytes in &bad {
        replace(&pool, bytes);
        let before = pool.objects(0, OBJECTS).unwrap();
        let came = [pool.get("one").map(drop), pool.put("new", b"3").map(drop), pool.remove("one")];
        for came in came.into_iter().chain([pool.names().map(drop)]) {
            assert!(text(came).ends_with("out of bounds: object 0 is no table of names"));
        }
        assert_eq!(pool.objects(0, OBJECTS).unwrap(), before);
        assert!(pool.read(0, 0, 2_000_000).unwrap() == *bytes);
    }
    replace(&pool, &with(&vec![0; 256 * (OBJECTS as usize - 3)]));
    assert_eq!(pool.put("three", b"3").unwrap(), 3);
}

#[test]
fn no_number_is_left() {
    let pool = open("full.pool");
    pool.put("0", b"").unwrap();
    let mut bytes = pool.read(0, 0, 512).unwrap();
    for number in 1..OBJECTS - 2 {
        let mut slot = number.to_string().into_bytes();
        slot.splice(0..0, [slot.len() as u8, 0]);
        slot.resize(256, 0);
        bytes.extend(slot);
    }
    replace(&pool, &bytes);
    assert_eq!((pool.names().unwrap().len(), pool.put("last", b"1").unwrap()), (5_290, 5_291));
    assert!(text(pool.put("one more", b"1")).ends_with("no number is left for an object"));
    pool.remove("17").unwrap();
    assert_eq!(pool.put("one more", b"1").unwrap(), 18);
}

#[test]
fn threads_that_put_one_name_make_one_object() {
    let pool = open("threads.pool");
    std::thread::scope(|scope| {
        for at in 0..4_u8 {
            let pool = &pool;
            scope.spawn(move || {
                for name in ["a", "b", "c", "d"] {
                    let object = pool.put(name, &[at; 100_000]).unwrap();
                    assert_eq!(pool.names().unwrap()[name], object);
                }
            });
        }
    });
    assert_eq!(pool.objects(0, OBJECTS).unwrap().len(), 5);
    for name in ["a", "b", "c", "d"] {
        let bytes = pool.get(name).unwrap();
        assert!(bytes.len() == 100_000 && bytes.iter().all(|byte| *byte == bytes[0]));
    }
}
