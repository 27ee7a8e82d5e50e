//! Writes `hello` to object 1 of a pool, and reads it: `cargo run --example hello ztxg tank.pool`.

use topzerad::{Error, Op, Pool, Refusal};

fn main() -> Result<(), Error> {
    let words: Vec<_> = std::env::args_os().skip(1).collect();
    let [program, file] = match <[_; 2]>::try_from(words) {
        Ok(words) => words,
        Err(_) => panic!("give the program and the file"),
    };
    let pool = Pool::open(program, file)?;
    match pool.transact(&[Op::Create(1)]) {
        Ok(receipt) => println!("made object 1: {receipt:?}"),
        Err(Error::Refused { refusal: Refusal::Exists, .. }) => println!("object 1 is there already"),
        Err(error) => return Err(error),
    }
    pool.transact_durably(&[Op::Write { object: 1, offset: 0, bytes: b"hello" }])?;
    println!("{}", String::from_utf8_lossy(&pool.read(1, 0, 5)?));
    pool.close()
}
