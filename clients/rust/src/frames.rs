//! Frames of requests and of answers, and the opening: `docs/FRAMES.md`.

use crate::error::Broken;
use crate::{Error, Listed, Opened, Receipt, Refusal, Status};
use std::io::{self, Read};

/// The most bytes of a frame, and of the answers to one.
const MAX_FRAME: usize = 4_194_304;
const HEAD: usize = 12;
const VERSION: u16 = 1;
/// Requests; those that hold a hub's turn for the next frame; and those that do so if the last read gets all its bytes.
pub(crate) const REQUESTS: u16 = 1;
pub(crate) const HOLDING: u16 = 6;
pub(crate) const READING_ON: u16 = 7;
const ANSWERS: u16 = 2;
const REFUSED_FRAME: u16 = 3;
const OPEN: u16 = 4;
const NOT_OPEN: u16 = 5;

/// The most bytes that one request reads.
const PIECE: u64 = 1_048_576;
/// The bytes that are kept for an answer without bytes or objects, and for each object of a list.
const LEAST_ROOM: usize = 80;
const LISTED: usize = 12;
/// What comes of a durable transaction that took place and is not durable.
const NOT_DURABLE: u8 = 11;

/// A call. A transaction is a log record.
#[derive(Debug)]
pub(crate) enum Request {
    Transact(Vec<u8>),
    TransactDurably(Vec<u8>),
    /// The bytes of a range. Those below `low` were read by the requests before this one.
    Read {
        object: u32,
        low: u64,
        high: u64,
        read: Vec<u8>,
    },
    Length {
        object: u32,
    },
    Objects {
        first: u32,
        past: u32,
    },
    Status,
    Durable(Receipt),
    Flush,
    Sync,
    Name,
}

/// What a call returns.
#[derive(Debug)]
pub(crate) enum Answer {
    Committed(Receipt),
    Bytes(Vec<u8>),
    Number(u64),
    Objects(Vec<Listed>),
    Status(Status),
    IsDurable(bool),
    Done,
}

/// What comes of a call.
pub(crate) type Outcome = Result<Answer, Error>;

impl Request {
    fn call(&self) -> u8 {
        match self {
            Request::Transact(_) => 1,
            Request::TransactDurably(_) => 2,
            Request::Read { .. } => 3,
            Request::Length { .. } => 4,
            Request::Objects { .. } => 5,
            Request::Status => 6,
            Request::Durable(_) => 7,
            Request::Flush => 8,
            Request::Sync => 9,
            Request::Name => 10,
        }
    }

    /// Its bytes in a frame.
    fn size(&self) -> usize {
        let needs = match self {
            Request::Transact(record) | Request::TransactDurably(record) => record.len(),
            Request::Read { .. } => 20,
            Request::Length { .. } => 4,
            Request::Objects { .. } => 8,
            Request::Durable(_) => 16,
            Request::Status | Request::Flush | Request::Sync | Request::Name => 0,
        };
        9 + needs
    }

    /// The bytes that the process keeps for its answer.
    fn room(&self) -> usize {
        match *self {
            Request::Read { low, high, .. } => LEAST_ROOM + end_of_piece(low, high).saturating_sub(low) as usize,
            Request::Objects { first, past } => {
                LEAST_ROOM + LISTED * past.saturating_sub(first).min(crate::OBJECTS) as usize
            }
            _ => LEAST_ROOM,
        }
    }

    /// Whether it is a read whose range goes on after the bytes that it asks for.
    pub(crate) fn goes_on(&self) -> bool {
        match *self {
            Request::Read { low, high, .. } => end_of_piece(low, high) < high,
            _ => false,
        }
    }

    fn add_to(&self, frame: &mut Vec<u8>) {
        match self {
            Request::Transact(record) | Request::TransactDurably(record) => frame.extend_from_slice(record),
            Request::Read { object, low, high, .. } => {
                frame.extend(object.to_le_bytes());
                frame.extend(low.to_le_bytes());
                frame.extend(end_of_piece(*low, *high).to_le_bytes());
            }
            Request::Length { object } => frame.extend(object.to_le_bytes()),
            Request::Objects { first, past } => {
                frame.extend(first.to_le_bytes());
                frame.extend(past.to_le_bytes());
            }
            Request::Durable(receipt) => {
                frame.extend(receipt.ordinal.to_le_bytes());
                frame.extend(receipt.group.to_le_bytes());
            }
            Request::Status | Request::Flush | Request::Sync | Request::Name => {}
        }
    }

    fn read_outcome(&self, bytes: &mut Bytes<'_>) -> Result<Outcome, Broken> {
        let came = bytes.u8()?;
        if came == 0 {
            return Ok(Err(Error::refused(bytes.refusal()?)));
        }
        if came == NOT_DURABLE && matches!(self, Request::TransactDurably(_)) {
            return Ok(Err(Error::NotDurable(bytes.receipt()?, bytes.refusal()?)));
        }
        if came != self.call() {
            return Err(Broken::BadAnswer);
        }
        let answer = match *self {
            Request::Transact(_) | Request::TransactDurably(_) => Answer::Committed(bytes.receipt()?),
            Request::Read { low, high, .. } => {
                let content = bytes.string()?;
                if content.len() as u64 > end_of_piece(low, high).saturating_sub(low) {
                    return Err(Broken::BadAnswer);
                }
                Answer::Bytes(content.to_vec())
            }
            Request::Name => Answer::Bytes(bytes.string()?.to_vec()),
            Request::Length { .. } | Request::Sync => Answer::Number(bytes.u64()?),
            Request::Objects { .. } => Answer::Objects(bytes.objects()?),
            Request::Status => Answer::Status(bytes.status()?),
            Request::Durable(_) => Answer::IsDurable(bytes.u8()? != 0),
            Request::Flush => Answer::Done,
        };
        Ok(Ok(answer))
    }
}

impl Answer {
    pub(crate) fn receipt(self) -> Result<Receipt, Error> {
        match self {
            Answer::Committed(receipt) => Ok(receipt),
            _ => Err(Error::BadAnswer),
        }
    }

    pub(crate) fn bytes(self) -> Result<Vec<u8>, Error> {
        match self {
            Answer::Bytes(bytes) => Ok(bytes),
            _ => Err(Error::BadAnswer),
        }
    }

    pub(crate) fn number(self) -> Result<u64, Error> {
        match self {
            Answer::Number(number) => Ok(number),
            _ => Err(Error::BadAnswer),
        }
    }

    pub(crate) fn objects(self) -> Result<Vec<Listed>, Error> {
        match self {
            Answer::Objects(objects) => Ok(objects),
            _ => Err(Error::BadAnswer),
        }
    }

    pub(crate) fn status(self) -> Result<Status, Error> {
        match self {
            Answer::Status(status) => Ok(status),
            _ => Err(Error::BadAnswer),
        }
    }

    pub(crate) fn durable(self) -> Result<bool, Error> {
        match self {
            Answer::IsDurable(is_durable) => Ok(is_durable),
            _ => Err(Error::BadAnswer),
        }
    }
}

/// How many bytes requests have in a frame, and how many their answers may have.
#[derive(Clone, Copy)]
pub(crate) struct Sizes {
    requests: usize,
    answers: usize,
}

impl Sizes {
    pub(crate) const NONE: Sizes = Sizes { requests: HEAD, answers: HEAD };

    pub(crate) fn with(self, request: &Request) -> Sizes {
        Sizes { requests: self.requests + request.size(), answers: self.answers + request.room() }
    }

    pub(crate) fn fit(self) -> bool {
        self.requests <= MAX_FRAME && self.answers <= MAX_FRAME
    }
}

/// What follows a piece of a read: the read with its next piece, or all of its bytes.
pub(crate) enum Next {
    Piece(Request),
    End(Vec<u8>),
}

/// Adds a piece to the bytes of a read. A short one is the last.
pub(crate) fn add_piece(object: u32, low: u64, high: u64, mut read: Vec<u8>, piece: Vec<u8>) -> Next {
    let end = end_of_piece(low, high);
    let is_last = end == high || (piece.len() as u64) < PIECE;
    if read.is_empty() {
        read = piece;
    } else {
        read.extend_from_slice(&piece);
    }
    if is_last {
        Next::End(read)
    } else {
        Next::Piece(Request::Read { object, low: end, high, read })
    }
}

fn end_of_piece(low: u64, high: u64) -> u64 {
    high.min(low.saturating_add(PIECE))
}

/// A frame of requests, whose numbers rise from `first` on.
pub(crate) fn requests_frame(kind: u16, first: u64, requests: &[&Request]) -> Vec<u8> {
    let size = requests.iter().map(|request| request.size()).fold(HEAD, usize::saturating_add);
    let mut frame = Vec::with_capacity(size);
    frame.extend((size as u32).to_le_bytes());
    frame.extend(VERSION.to_le_bytes());
    frame.extend(kind.to_le_bytes());
    frame.extend((requests.len() as u32).to_le_bytes());
    for (number, request) in (first..).zip(requests) {
        frame.extend(number.to_le_bytes());
        frame.push(request.call());
        request.add_to(&mut frame);
    }
    frame
}

struct Frame {
    kind: u16,
    number: u32,
    content: Vec<u8>,
}

fn read_frame(from: &mut impl Read) -> Result<Frame, Broken> {
    let mut head = [0; HEAD];
    from.read_exact(&mut head)?;
    let mut head = Bytes(&head);
    let (size, version, kind, number) = (head.u32()? as usize, head.u16()?, head.u16()?, head.u32()?);
    if version != VERSION || !(HEAD..=MAX_FRAME).contains(&size) {
        return Err(Broken::BadAnswer);
    }
    let mut content = vec![0; size - HEAD];
    from.read_exact(&mut content)?;
    Ok(Frame { kind, number, content })
}

/// Reads the answers to the requests whose numbers rise from `first` on.
pub(crate) fn read_answers(from: &mut impl Read, first: u64, requests: &[&Request]) -> Result<Vec<Outcome>, Broken> {
    let frame = read_frame(from)?;
    let mut bytes = Bytes(&frame.content);
    let outcomes = match frame.kind {
        REFUSED_FRAME => requests.iter().map(|_| Err(Error::FrameRefused(frame.number))).collect(),
        ANSWERS if frame.number as usize == requests.len() => {
            let read = |(number, request): (u64, &&Request)| {
                if bytes.u64()? != number {
                    return Err(Broken::BadAnswer);
                }
                request.read_outcome(&mut bytes)
            };
            (first..).zip(requests).map(read).collect::<Result<_, _>>()?
        }
        _ => return Err(Broken::BadAnswer),
    };
    bytes.end()?;
    Ok(outcomes)
}

/// Reads the first frame of the process: what it says of the pool that is open, or why none is.
pub(crate) fn read_opening(from: &mut impl Read) -> Result<Result<Opened, Error>, Broken> {
    let frame = read_frame(from)?;
    let mut bytes = Bytes(&frame.content);
    let opening = match (frame.kind, frame.number) {
        (OPEN, 0) => Ok(Opened { guid: bytes.u64()?, group: bytes.u64()?, records: bytes.u64()? }),
        (NOT_OPEN, number) => Err(bytes.no_opening(number)?),
        _ => return Err(Broken::BadAnswer),
    };
    bytes.end()?;
    Ok(opening)
}

/// The bytes of an answer that are not read yet. Those that end too early are no answer.
struct Bytes<'a>(&'a [u8]);

impl<'a> Bytes<'a> {
    fn take(&mut self, count: usize) -> Result<&'a [u8], Broken> {
        if count > self.0.len() {
            return Err(Broken::BadAnswer);
        }
        let (taken, left) = self.0.split_at(count);
        self.0 = left;
        Ok(taken)
    }

    fn array<const N: usize>(&mut self) -> Result<[u8; N], Broken> {
        self.take(N)?.try_into().map_err(|_| Broken::BadAnswer)
    }

    /// Nothing may follow.
    fn end(&self) -> Result<(), Broken> {
        if self.0.is_empty() {
            Ok(())
        } else {
            Err(Broken::BadAnswer)
        }
    }

    fn u8(&mut self) -> Result<u8, Broken> {
        Ok(u8::from_le_bytes(self.array()?))
    }

    fn u16(&mut self) -> Result<u16, Broken> {
        Ok(u16::from_le_bytes(self.array()?))
    }

    fn u32(&mut self) -> Result<u32, Broken> {
        Ok(u32::from_le_bytes(self.array()?))
    }

    fn u64(&mut self) -> Result<u64, Broken> {
        Ok(u64::from_le_bytes(self.array()?))
    }

    fn string(&mut self) -> Result<&'a [u8], Broken> {
        let count = self.u32()? as usize;
        self.take(count)
    }

    fn receipt(&mut self) -> Result<Receipt, Broken> {
        Ok(Receipt { ordinal: self.u64()?, group: self.u64()? })
    }

    fn objects(&mut self) -> Result<Vec<Listed>, Broken> {
        let count = self.u32()?;
        (0..count).map(|_| Ok(Listed { object: self.u32()?, length: self.u64()? })).collect()
    }

    fn status(&mut self) -> Result<Status, Broken> {
        Ok(Status {
            synced: self.u64()?,
            syncing: self.u64()?,
            middle: self.u64()?,
            open: self.u64()?,
            dirty: self.u64()?,
            free: self.u64()?,
            available: self.u64()?,
        })
    }

    fn refusal(&mut self) -> Result<Refusal, Broken> {
        let (number, kind, address) = (self.u8()?, self.u64()?, self.u64()?);
        Refusal::of_number(number.into(), kind, address).ok_or(Broken::BadAnswer)
    }

    /// Why no pool is open.
    fn no_opening(&mut self, number: u32) -> Result<Error, Broken> {
        let (kind, address, error) = (self.u64()?, self.u64()?, self.u32()?);
        let cause = String::from_utf8_lossy(self.string()?).into_owned();
        if number == 0 {
            let source = (error != 0).then(|| io::Error::from_raw_os_error(error as i32));
            return Ok(Error::Unusable { cause, source });
        }
        let refusal = Refusal::of_number(number, kind, address).ok_or(Broken::BadAnswer)?;
        Ok(Error::Refused { refusal, cause: Some(cause) })
    }
}

#[cfg(test)]
mod tests {
    use super::*;

    fn bytes_of(digits: &str) -> Vec<u8> {
        let digits: Vec<_> = digits.bytes().filter(|byte| *byte != b' ').collect();
        let byte = |pair: &[u8]| u8::from_str_radix(std::str::from_utf8(pair).unwrap(), 16).unwrap();
        digits.chunks(2).map(byte).collect()
    }

    /// The openings that `docs/FRAMES.md` has worked out.
    #[test]
    fn the_worked_openings_are_read() {
        let open = bytes_of("24000000 0100 0400 00000000 4d00000000000000 0800000000000000 0000000000000000");
        let opened = read_opening(&mut &open[..]).unwrap().unwrap();
        assert_eq!(opened, Opened { guid: 77, group: 8, records: 0 });
        let head = "4a000000 0100 0500 00000000 0000000000000000 0000000000000000 02000000 26000000";
        let missing = [bytes_of(head), b"No such file or directory (os error 2)".to_vec()].concat();
        match read_opening(&mut &missing[..]).unwrap() {
            Err(Error::Unusable { cause, source: Some(source) }) => {
                assert_eq!(cause, "No such file or directory (os error 2)");
                assert_eq!(source.kind(), io::ErrorKind::NotFound);
            }
            other => panic!("{other:?}"),
        }
    }

    /// A head of kind 5 with number 7, kind 3 and address 4,198,400 of the block, no error of the system, and `!`.
    #[test]
    fn what_is_no_opening_is_no_answer() {
        let head = "25000000 0100 0500 07000000 0300000000000000 0010400000000000 00000000 01000000";
        let damaged = [bytes_of(head), b"!".to_vec()].concat();
        match read_opening(&mut &damaged[..]).unwrap() {
            Err(Error::Refused { refusal, cause }) => {
                assert_eq!(refusal, Refusal::Damaged { kind: 3, address: 4_198_400 });
                assert_eq!(cause.as_deref(), Some("!"));
            }
            other => panic!("{other:?}"),
        }
        let with_byte = |at: usize, byte: u8| {
            let mut bytes = damaged.clone();
            bytes[at] = byte;
            read_opening(&mut &bytes[..]).unwrap_err()
        };
        // No version, kind or refusal; a cause that ends before its frame; a frame that ends after the process.
        for (at, byte) in [(4, 2), (6, 3), (8, 24), (32, 0)] {
            assert_eq!(with_byte(at, byte), Broken::BadAnswer);
        }
        assert_eq!(with_byte(0, 0x26), Broken::Ended);
    }

    /// The request and the answers that `docs/FRAMES.md` has worked out.
    #[test]
    fn answers_are_those_of_their_requests() {
        let record = bytes_of("1b000000 0000000000000000 0000000000000000 0100 01 01000000");
        let request = Request::Transact(record);
        let frame = "30000000 0100 0100 01000000 0200000000000000 01\
                     1b000000 0000000000000000 0000000000000000 0100 01 01000000";
        assert_eq!(requests_frame(REQUESTS, 2, &[&request]), bytes_of(frame));
        let committed = "25000000 0100 0200 01000000 0200000000000000 01 0300000000000000 0900000000000000";
        let read = |digits: &str, first| {
            let frame = bytes_of(digits);
            read_answers(&mut &frame[..], first, &[&request]).map(|mut outcomes| outcomes.remove(0))
        };
        match read(committed, 2) {
            Ok(Ok(Answer::Committed(receipt))) => assert_eq!(receipt, Receipt { ordinal: 3, group: 9 }),
            other => panic!("{other:?}"),
        }
        assert_eq!(read(committed, 3).unwrap_err(), Broken::BadAnswer);
        let refused = "26000000 0100 0200 01000000 0200000000000000 00 10 0000000000000000 0000000000000000";
        assert_eq!(read(refused, 2).unwrap().unwrap_err().refusal(), Some(Refusal::NoSpace));
        let outcome = read("0c000000 0100 0300 06000000", 2).unwrap();
        assert!(matches!(outcome, Err(Error::FrameRefused(6))));
    }
}
