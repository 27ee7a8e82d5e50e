//! Names of objects: the bytes of object 0 as a table of names (`docs/FORMATS.md`, "Names of objects").

use crate::{Error, Listed, Op, Refusal, OBJECTS};
use std::collections::BTreeMap;

/// The most bytes of an object's name.
pub const MAX_OBJECT_NAME: usize = 254;

const SLOT: usize = 256;
const MARK: &[u8; 16] = b"topzerad names 1";
const EMPTY: [u8; SLOT] = [0; SLOT];

/// Tests whether an object may have a name.
pub(crate) fn check_name(name: &str) -> Result<(), Error> {
    if is_name(name) {
        return Ok(());
    }
    let cause = format!("object name {name:?}: 1 to {MAX_OBJECT_NAME} bytes of UTF-8, no control characters, no /");
    Err(Error::out_of_bounds(Refusal::BadRange, cause))
}

fn is_name(name: &str) -> bool {
    !name.is_empty() && name.len() <= MAX_OBJECT_NAME && !name.chars().any(|c| c == '/' || c.is_control())
}

fn header() -> [u8; SLOT] {
    let mut slot = EMPTY;
    slot[..MARK.len()].copy_from_slice(MARK);
    slot
}

/// The slot of a name.
fn slot_of(name: &str) -> [u8; SLOT] {
    let mut slot = EMPTY;
    slot[0] = name.len() as u8;
    slot[2..2 + name.len()].copy_from_slice(name.as_bytes());
    slot
}

/// What object 0 is written with, and the number of the object that is made or goes.
pub(crate) struct Change {
    object: u32,
    header: Option<[u8; SLOT]>,
    slot: Option<[u8; SLOT]>,
    has_table: bool,
    is_there: bool,
}

impl Change {
    pub(crate) fn object(&self) -> u32 {
        self.object
    }

    /// The operations that make the object, or empty it if it is there, and write its first bytes.
    pub(crate) fn put<'a>(&'a self, first: &'a [u8]) -> Vec<Op<'a>> {
        let object = self.object;
        let mut ops = Vec::with_capacity(5);
        if self.slot.is_some() && !self.has_table {
            ops.push(Op::Create(0));
        }
        ops.extend(self.header.as_ref().map(|bytes| Op::Write { object: 0, offset: 0, bytes }));
        ops.extend(self.write());
        ops.push(if self.is_there { Op::SetLength { object, length: 0 } } else { Op::Create(object) });
        if !first.is_empty() {
            ops.push(Op::Write { object, offset: 0, bytes: first });
        }
        ops
    }

    /// The operations that remove the object, if it is there, and its name.
    pub(crate) fn remove(&self) -> Vec<Op<'_>> {
        let gone = self.is_there.then(|| Op::Remove(self.object));
        gone.into_iter().chain(self.write()).collect()
    }

    fn write(&self) -> Option<Op<'_>> {
        let offset = u64::from(self.object) * SLOT as u64;
        self.slot.as_ref().map(|bytes| Op::Write { object: 0, offset, bytes })
    }
}

/// The numbers of objects by their names.
pub(crate) struct NameTable {
    is_empty: bool,
    names: BTreeMap<String, u32>,
}

impl NameTable {
    /// The table of names that the bytes of object 0 are.
    pub(crate) fn read(bytes: &[u8]) -> Result<NameTable, Error> {
        let cause = || Error::out_of_bounds(Refusal::BadRange, "object 0 is no table of names".to_owned());
        let names = names_in(bytes).ok_or_else(cause)?;
        Ok(NameTable { is_empty: bytes.is_empty(), names })
    }

    pub(crate) fn into_names(self) -> BTreeMap<String, u32> {
        self.names
    }

    pub(crate) fn find(&self, name: &str) -> Result<u32, Error> {
        let cause = || Error::out_of_bounds(Refusal::NoObject, format!("no object has the name {name:?}"));
        self.names.get(name).copied().ok_or_else(cause)
    }

    /// What a put of a name changes, if these objects are there.
    pub(crate) fn change_for_put(&self, name: &str, objects: &[Listed]) -> Result<Change, Error> {
        if let Some(&object) = self.names.get(name) {
            let is_there = has(objects, object);
            return Ok(Change { object, header: None, slot: None, has_table: true, is_there });
        }
        let object = self.free_number(objects)?;
        let header = self.is_empty.then(header);
        let has_table = has(objects, 0);
        Ok(Change { object, header, slot: Some(slot_of(name)), has_table, is_there: false })
    }

    /// What a removal of a name changes, if these objects are there.
    pub(crate) fn change_for_removal(&self, name: &str, objects: &[Listed]) -> Result<Change, Error> {
        let object = self.find(name)?;
        let is_there = has(objects, object);
        Ok(Change { object, header: None, slot: Some(EMPTY), has_table: true, is_there })
    }

    /// The lowest number from 1 on without a name and an object.
    fn free_number(&self, objects: &[Listed]) -> Result<u32, Error> {
        let mut is_taken = vec![false; OBJECTS as usize];
        let taken = self.names.values().copied().chain(objects.iter().map(|listed| listed.object));
        for number in taken {
            is_taken[number as usize] = true;
        }
        let cause = || Error::out_of_bounds(Refusal::TooMany, "no number is left for an object".to_owned());
        (1..OBJECTS).find(|&number| !is_taken[number as usize]).ok_or_else(cause)
    }
}

fn has(objects: &[Listed], object: u32) -> bool {
    objects.iter().any(|listed| listed.object == object)
}

/// The names in the bytes of object 0, or None if they are no table of names.
fn names_in(bytes: &[u8]) -> Option<BTreeMap<String, u32>> {
    let mut names = BTreeMap::new();
    let mut slots = bytes.chunks_exact(SLOT);
    let is_whole = slots.remainder().is_empty() && bytes.len() <= SLOT * OBJECTS as usize;
    if !is_whole || slots.next().map_or(false, |first| first != header()) {
        return None;
    }
    for (number, slot) in (1..).zip(slots).filter(|(_, slot)| **slot != EMPTY) {
        let name = std::str::from_utf8(slot.get(2..2 + usize::from(slot[0]))?).ok()?;
        if !is_name(name) || slot != slot_of(name) || names.insert(name.to_owned(), number).is_some() {
            return None;
        }
    }
    Some(names)
}
