//! The turns of callers, as those of `clients/c/topzerad.c`.
//!
//! Calls of all threads are queued. The first thread that finds no leader sends all that fit one frame, and hands out
//! the answers. While it waits, the next ones gather: so their durable transactions share a flush.
//!
//! 1. Calls are asked in the order of the queue, and a caller's last one is answered last.
//! 2. A read that goes on after its piece is the last call of its frame, and comes back to the front of the queue. So
//!    no call comes between its pieces.
//! 3. A thread that stops leading leaves something to ask the process by, or it breaks the connection and answers all
//!    that are queued. A panic does so too. So no caller waits for one that is gone.

use crate::error::Broken;
use crate::frames::{self, Answer, Next, Outcome, Request, Sizes};
use crate::Error;
use std::collections::{HashMap, VecDeque};
use std::mem;
use std::ops::Range;
use std::sync::{Condvar, Mutex, MutexGuard, PoisonError};

/// Asks the process by one frame.
pub(crate) trait Exchange {
    /// What came of the requests, in their order.
    fn ask(&mut self, requests: &[&Request]) -> Result<Vec<Outcome>, Broken>;
}

pub(crate) struct Turns<E> {
    state: Mutex<State<E>>,
    turn: Condvar,
}

struct State<E> {
    waiting: VecDeque<Call>,
    next_ticket: u64,
    /// What came of calls, by their tickets, until their callers take it.
    outcomes: HashMap<u64, Outcome>,
    /// It is away while a thread leads.
    exchange: Option<E>,
    broken: Option<Broken>,
}

struct Call {
    ticket: u64,
    request: Request,
}

impl<E: Exchange> Turns<E> {
    pub(crate) fn new(exchange: E) -> Turns<E> {
        let state = State {
            waiting: VecDeque::new(),
            next_ticket: 0,
            outcomes: HashMap::new(),
            exchange: Some(exchange),
            broken: None,
        };
        Turns { state: Mutex::new(state), turn: Condvar::new() }
    }

    pub(crate) fn ask(&self, request: Request) -> Outcome {
        self.ask_all(vec![request]).pop().unwrap_or(Err(Error::Broken))
    }

    /// Asks calls in their order, and returns what came of each.
    pub(crate) fn ask_all(&self, requests: Vec<Request>) -> Vec<Outcome> {
        let mut state = self.lock();
        if let Some(broken) = state.broken {
            return requests.iter().map(|_| Err(broken.of_later())).collect();
        }
        let tickets = state.queue(requests);
        while !state.are_answered(&tickets) {
            state = match state.exchange.take() {
                Some(exchange) => self.lead(state, exchange),
                None => self.turn.wait(state).unwrap_or_else(PoisonError::into_inner),
            };
        }
        tickets.map(|ticket| state.outcomes.remove(&ticket).unwrap_or(Err(Error::Broken))).collect()
    }

    /// Whether a call found that the process had ended.
    pub(crate) fn found_the_end(&self) -> bool {
        self.lock().broken == Some(Broken::Ended)
    }

    /// Asks the first calls of the queue by one frame.
    fn lead<'a>(&'a self, mut state: MutexGuard<'a, State<E>>, mut exchange: E) -> MutexGuard<'a, State<E>> {
        let mut lead = Lead { turns: self, calls: state.take_frame() };
        drop(state);
        let requests: Vec<_> = lead.calls.iter().map(|call| &call.request).collect();
        let came = exchange.ask(&requests);
        let calls = mem::take(&mut lead.calls);
        let mut state = self.lock();
        match came {
            Ok(outcomes) => state.answer(calls, outcomes, exchange),
            Err(broken) => state.break_off(calls, broken),
        }
        self.turn.notify_all();
        state
    }

    fn lock(&self) -> MutexGuard<'_, State<E>> {
        // No step leaves the state half made: a thread panics with the lock held only if there is no memory.
        self.state.lock().unwrap_or_else(PoisonError::into_inner)
    }
}

impl<E> State<E> {
    /// Queues calls, and returns their tickets.
    fn queue(&mut self, requests: Vec<Request>) -> Range<u64> {
        let first = self.next_ticket;
        self.next_ticket += requests.len() as u64;
        self.waiting.extend((first..).zip(requests).map(|(ticket, request)| Call { ticket, request }));
        first..self.next_ticket
    }

    /// The last of a caller's calls is answered last.
    fn are_answered(&self, tickets: &Range<u64>) -> bool {
        tickets.is_empty() || self.outcomes.contains_key(&(tickets.end - 1))
    }

    /// Takes the first calls off the queue that fit one frame: at least one does.
    fn take_frame(&mut self) -> Vec<Call> {
        let (mut sizes, mut count) = (Sizes::NONE, 0);
        for call in &self.waiting {
            sizes = sizes.with(&call.request);
            if count > 0 && !sizes.fit() {
                break;
            }
            count += 1;
            if call.request.goes_on() {
                break;
            }
        }
        self.waiting.drain(..count).collect()
    }

    fn answer(&mut self, calls: Vec<Call>, outcomes: Vec<Outcome>, exchange: E) {
        for (call, outcome) in calls.into_iter().zip(outcomes) {
            let outcome = match (call.request, outcome) {
                (Request::Read { object, low, high, read }, Ok(Answer::Bytes(piece))) => {
                    match frames::add_piece(object, low, high, read, piece) {
                        Next::Piece(request) => {
                            self.waiting.push_front(Call { ticket: call.ticket, request });
                            continue;
                        }
                        Next::End(bytes) => Ok(Answer::Bytes(bytes)),
                    }
                }
                (_, outcome) => outcome,
            };
            self.outcomes.insert(call.ticket, outcome);
        }
        self.exchange = Some(exchange);
    }

    /// Ends all calls: those of a frame without its answers, and those that wait.
    fn break_off(&mut self, calls: Vec<Call>, broken: Broken) {
        self.broken = Some(broken);
        self.outcomes.extend(calls.iter().map(|call| (call.ticket, Err(broken.of_asked()))));
        self.outcomes.extend(self.waiting.drain(..).map(|call| (call.ticket, Err(broken.of_later()))));
    }
}

/// A thread that leads, with the calls of its frame.
struct Lead<'a, E: Exchange> {
    turns: &'a Turns<E>,
    calls: Vec<Call>,
}

impl<E: Exchange> Drop for Lead<'_, E> {
    /// The frame's calls are still here only if the thread panics.
    fn drop(&mut self) {
        if !self.calls.is_empty() {
            let calls = mem::take(&mut self.calls);
            self.turns.lock().break_off(calls, Broken::CutOff);
            self.turns.turn.notify_all();
        }
    }
}

#[cfg(test)]
mod tests {
    use super::*;
    use std::sync::mpsc;
    use std::thread;

    impl<F: FnMut(&[&Request]) -> Result<Vec<Outcome>, Broken>> Exchange for F {
        fn ask(&mut self, requests: &[&Request]) -> Result<Vec<Outcome>, Broken> {
            self(requests)
        }
    }

    fn wait_for_callers<E: Exchange>(turns: &Turns<E>, count: usize) {
        while turns.lock().waiting.len() < count {
            thread::yield_now();
        }
    }

    /// Answers by what is asked: a read with as many zeros.
    fn answers(requests: &[&Request]) -> Vec<Outcome> {
        let answer = |request: &&Request| match request {
            Request::Read { low, high, .. } => Ok(Answer::Bytes(vec![0; (high - low).min(1 << 20) as usize])),
            _ => Ok(Answer::Done),
        };
        requests.iter().map(answer).collect()
    }

    /// One caller leads, and four gather. The second of them reads three pieces, so its first is the last of a frame.
    #[test]
    fn callers_that_gather_share_a_frame() {
        let (leads, led) = mpsc::channel();
        let (go, gone) = mpsc::channel();
        let (frames, sizes) = mpsc::channel();
        let turns = &Turns::new(move |requests: &[&Request]| {
            leads.send(()).unwrap();
            gone.recv().unwrap();
            frames.send(requests.len()).unwrap();
            Ok(answers(requests))
        });
        let long = || Request::Read { object: 1, low: 7, high: 7 + (3 << 20), read: Vec::new() };
        thread::scope(|scope| {
            let ask = |request| scope.spawn(move || turns.ask(request).unwrap());
            ask(Request::Flush);
            led.recv().unwrap();
            let mut callers = Vec::new();
            for (at, request) in [Request::Flush, long(), Request::Flush, Request::Sync].into_iter().enumerate() {
                callers.push(ask(request));
                wait_for_callers(turns, at + 1);
            }
            for _ in 0..4 {
                go.send(()).unwrap();
            }
            let read = callers.remove(1).join().unwrap();
            assert!(matches!(read, Answer::Bytes(bytes) if bytes.len() == 3 << 20));
        });
        // The first caller's; a flush and the first piece; the second piece; the third one, a flush and a sync.
        assert_eq!(sizes.try_iter().collect::<Vec<_>>(), [1, 2, 1, 3]);
    }

    #[test]
    fn a_frame_keeps_its_limits() {
        let sizes = |requests: Vec<Request>| {
            let (frames, sizes) = mpsc::channel();
            let turns = Turns::new(move |requests: &[&Request]| {
                frames.send(requests.len()).unwrap();
                Ok(answers(requests))
            });
            turns.ask_all(requests);
            sizes.try_iter().collect::<Vec<_>>()
        };
        // 52,428 answers of 80 bytes, and 12, are the most that have at most 4,194,304.
        assert_eq!(sizes((0..52_429).map(|_| Request::Flush).collect()), [52_428, 1]);
        // 63 records of 65,536 bytes, 9 each besides, and 12, are the most below that number.
        assert_eq!(sizes((0..64).map(|_| Request::Transact(vec![0; 65_536])).collect()), [63, 1]);
        let read = |_| Request::Read { object: 1, low: 0, high: 1 << 20, read: Vec::new() };
        assert_eq!(sizes((0..4).map(read).collect()), [3, 1]);
    }

    /// The leader panics between its frame and the answer. One caller waits, and one comes later.
    #[test]
    fn a_panic_leaves_no_caller_waiting() {
        let (leads, led) = mpsc::channel();
        let (go, gone) = mpsc::channel::<()>();
        let turns = Turns::new(move |_: &[&Request]| -> Result<Vec<Outcome>, Broken> {
            leads.send(()).unwrap();
            gone.recv().unwrap();
            panic!("this panic is part of the test");
        });
        thread::scope(|scope| {
            let leader = scope.spawn(|| turns.ask(Request::Flush));
            led.recv().unwrap();
            let waiting = scope.spawn(|| turns.ask(Request::Flush));
            wait_for_callers(&turns, 1);
            go.send(()).unwrap();
            assert!(leader.join().is_err());
            assert!(matches!(waiting.join().unwrap(), Err(Error::Broken)));
        });
        assert!(matches!(turns.ask(Request::Flush), Err(Error::Broken)));
    }
}
