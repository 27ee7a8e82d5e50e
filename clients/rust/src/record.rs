//! Transactions as log records: `docs/FORMATS.md`, "Log record".
//!
//! A frame with a record outside its limits is refused whole, with the calls of other threads in it. So each limit of a
//! record is tested here, before it is sent.

use crate::{Error, Op, Refusal, MAX_LENGTH, OBJECTS};

const HEAD: usize = 22;
const MAX_RECORD: usize = 65_536;
const MAX_NAME: usize = 64;

/// Operations as a log record, whose group and ordinal say nothing.
pub(crate) fn record(ops: &[Op<'_>]) -> Result<Vec<u8>, Error> {
    if ops.is_empty() {
        let cause = "a transaction of no operations: 1 at least".to_owned();
        return Err(Error::out_of_bounds(Refusal::BadRange, cause));
    }
    let size = ops.iter().map(size_of).fold(HEAD, usize::saturating_add);
    if size > MAX_RECORD {
        let cause = format!("a record of {size} bytes: {MAX_RECORD} at most");
        return Err(Error::out_of_bounds(Refusal::TooLarge, cause));
    }
    let mut bytes = Vec::with_capacity(size);
    bytes.extend((size as u32).to_le_bytes());
    bytes.extend([0; 16]);
    bytes.extend((ops.len() as u16).to_le_bytes());
    for op in ops {
        check(op).map_err(|cause| Error::out_of_bounds(Refusal::BadRange, cause))?;
        add(&mut bytes, op);
    }
    Ok(bytes)
}

fn size_of(op: &Op<'_>) -> usize {
    match op {
        Op::Create(_) | Op::Remove(_) => 5,
        Op::Write { bytes, .. } => bytes.len().saturating_add(17),
        Op::SetLength { .. } => 13,
        Op::SetName(name) => name.len().saturating_add(5),
    }
}

/// Tests the limits of an operation. The error says which one it doesn't keep.
fn check(op: &Op<'_>) -> Result<(), String> {
    match *op {
        Op::Create(object) | Op::Remove(object) => check_object(object),
        Op::Write { object, offset, bytes } => check_object(object).and_then(|()| check_bytes(offset, bytes)),
        Op::SetLength { object, length } => check_object(object).and_then(|()| check_length(length)),
        Op::SetName(name) => check_name(name),
    }
}

fn check_object(object: u32) -> Result<(), String> {
    if object < OBJECTS {
        return Ok(());
    }
    Err(format!("object {object}: numbers go to {}", OBJECTS - 1))
}

fn check_length(length: u64) -> Result<(), String> {
    if length <= MAX_LENGTH {
        return Ok(());
    }
    Err(format!("length {length}: an object has at most {MAX_LENGTH} bytes"))
}

fn check_bytes(offset: u64, bytes: &[u8]) -> Result<(), String> {
    if bytes.is_empty() {
        return Err("a write of no bytes: 1 at least".to_owned());
    }
    check_end(offset, bytes)
}

/// Bytes may not end after the longest object.
pub(crate) fn check_end(offset: u64, bytes: &[u8]) -> Result<(), String> {
    let end = offset.saturating_add(bytes.len() as u64);
    if end <= MAX_LENGTH {
        return Ok(());
    }
    Err(format!("the bytes end at {end}: an object has at most {MAX_LENGTH}"))
}

fn check_name(name: &[u8]) -> Result<(), String> {
    let is_first = name.first().map_or(false, u8::is_ascii_alphabetic);
    let are_others = name.iter().all(|byte| byte.is_ascii_alphanumeric() || b"-_.".contains(byte));
    if is_first && are_others && name.len() <= MAX_NAME {
        return Ok(());
    }
    let name = String::from_utf8_lossy(name);
    Err(format!("name {name:?}: 1 to {MAX_NAME} bytes, first a letter, then letters, digits, - _ ."))
}

fn add(bytes: &mut Vec<u8>, op: &Op<'_>) {
    match *op {
        Op::Create(object) => add_object(bytes, 1, object),
        Op::Remove(object) => add_object(bytes, 2, object),
        Op::Write { object, offset, bytes: content } => {
            add_object(bytes, 3, object);
            bytes.extend(offset.to_le_bytes());
            add_string(bytes, content);
        }
        Op::SetLength { object, length } => {
            add_object(bytes, 4, object);
            bytes.extend(length.to_le_bytes());
        }
        Op::SetName(name) => {
            bytes.push(5);
            add_string(bytes, name);
        }
    }
}

fn add_object(bytes: &mut Vec<u8>, tag: u8, object: u32) {
    bytes.push(tag);
    bytes.extend(object.to_le_bytes());
}

fn add_string(bytes: &mut Vec<u8>, content: &[u8]) {
    bytes.extend((content.len() as u32).to_le_bytes());
    bytes.extend(content);
}
