"""Threads that ask at once share a frame, and so the durable transactions of several share a flush.

The calls of all threads are queued. The first thread that finds no leader leads: it sends all that are queued as one
frame, hands out the answers, and goes on until its own calls are answered. Then the thread whose call is next leads.
While a leader waits for its answers, the next calls gather.

A long read is made in pieces, each in a frame of its own. It is the last call of such a frame, and goes back to the
front of the queue. So no call comes between its pieces, and its bytes are of one moment.

An exception may come at any place of a thread, such as a `KeyboardInterrupt`. If the thread leads and its frame is
under way, an answer may stay unread. Then the connection is broken, and every call that waits raises."""

from __future__ import annotations

import copy
import threading
from collections import deque
from typing import Any, Callable, Deque, Generic, List, Optional, Sequence, TypeVar, Union, cast

from .errors import Broken, Ended, Error
from .frames import HEAD, LEAST_ROOM, MAX_FRAME, Kind

T = TypeVar("T")

_CUT_OFF = "a call before this one was cut off, so answers can't be told apart: close the pool"
_MAYBE_MADE = "the thread that led this call was interrupted: the call may have been made, or not"


class Call(Generic[T]):
    """A request, and what came of it: an `Error`, or what its kind reads."""

    __slots__ = ("kind", "needs", "room", "turn", "is_done", "_outcome")

    turn: Turn

    def __init__(self, kind: Kind[T], needs: bytes = b"", room: int = 0) -> None:
        self.kind, self.needs, self.room = kind, needs, LEAST_ROOM + room
        self.is_done = False
        self._outcome: Union[T, Error, None] = None

    @property
    def size(self) -> int:
        """How many bytes of a frame it takes."""
        return 9 + len(self.needs)

    @property
    def goes_on(self) -> bool:
        """Whether it asks again after this answer."""
        return False

    def take(self, outcome: Union[T, Error]) -> bool:
        """Takes an answer, and returns whether it was the last one."""
        self._outcome = outcome
        return True

    @property
    def outcome(self) -> Union[T, Error]:
        """What came of it, once it is done."""
        return cast("Union[T, Error]", self._outcome)


class Turn:
    """The calls that a thread makes together: how many are left, and where the thread waits."""

    __slots__ = ("left", "is_given_up", "_sleep")

    def __init__(self, calls: Sequence[Call[Any]] = ()) -> None:
        self.left = len(calls)
        self.is_given_up = False
        self._sleep = threading.Lock()
        self._sleep.acquire()
        for call in calls:
            call.turn = self

    @property
    def is_under_way(self) -> bool:
        return self.left > 0 and not self.is_given_up

    def wait(self) -> None:
        """Returns once the turn was woken since the last wait."""
        self._sleep.acquire()

    def wake(self) -> None:
        if self._sleep.locked():
            self._sleep.release()

    def finish(self, call: Call[Any]) -> None:
        """Notes that a call is done, and wakes the thread after the last one."""
        if not call.is_done:
            call.is_done = True
            self.left -= 1
            if not self.left:
                self.wake()


Ask = Callable[[List[Call[Any]]], List[Any]]


class Turns:
    """The queue of calls, and who leads. `ask` makes the calls of a frame, and returns what came of each."""

    def __init__(self, ask: Ask) -> None:
        self._ask = ask
        self._own = threading.local()  # the last turn of each thread
        self._lock = threading.Lock()  # of all that follows
        self._queue: Deque[Call[Any]] = deque()
        self._leader: Optional[Turn] = None
        self._asked: List[Call[Any]] = []  # the calls of the frame that is under way
        self._refusal: Optional[Error] = None  # why no call is made any more
        self._stopping: List[Turn] = []  # the threads that wait until no call is left

    def make(self, calls: Sequence[Call[Any]]) -> None:
        """Makes calls, at least one, and returns once all are done."""
        turn = Turn(calls)
        self._refuse_within_own_call()
        self._own.turn = turn
        try:
            self._enter(turn, calls)
            while turn.left:
                if self._leader is turn:
                    self._lead(turn)
                else:
                    turn.wait()
        except BaseException:
            self._give_up(turn)
            raise

    def stop(self, refusal: Error) -> None:
        """Refuses all later calls so, and returns once the earlier ones are done."""
        turn = Turn()
        self._refuse_within_own_call()
        with self._lock:
            self._refusal = self._refusal or refusal
            if self._leader is None:
                return
            self._stopping.append(turn)
        turn.wait()

    def _refuse_within_own_call(self) -> None:
        """A signal's handler that makes a call would wait for the call of its own thread that it interrupts."""
        turn: Optional[Turn] = getattr(self._own, "turn", None)
        if turn is not None and turn.is_under_way:
            raise Error("a signal's handler can't use a pool that its thread is asking")

    def _enter(self, turn: Turn, calls: Sequence[Call[Any]]) -> None:
        with self._lock:
            if self._refusal is not None:
                raise copy.copy(self._refusal)
            self._queue.extend(calls)
            self._leader = self._leader or turn

    def _lead(self, turn: Turn) -> None:
        while turn.left:
            self._take_calls()
            try:
                outcomes = self._ask(self._asked)
            except Error as error:
                later = copy.copy(error) if isinstance(error, Ended) else Broken(_CUT_OFF)
                with self._lock:
                    self._break(error, later)
                return
            self._hand_out(outcomes)
        with self._lock:
            self._pass_on()

    def _take_calls(self) -> None:
        """Takes the calls that fit one frame off the queue. Each answer has its room, so they are at most 52,428."""
        size = room = HEAD.size
        with self._lock:
            while self._queue:
                call = self._queue[0]
                size, room = size + call.size, room + call.room
                if self._asked and (size > MAX_FRAME or room > MAX_FRAME):
                    return
                self._asked.append(call)
                self._queue.popleft()
                if call.goes_on:
                    return

    def _hand_out(self, outcomes: List[Any]) -> None:
        with self._lock:
            for call, outcome in zip(self._asked, outcomes):
                if call.take(outcome):
                    call.turn.finish(call)
                elif not call.turn.is_given_up:
                    self._queue.appendleft(call)
            self._asked = []

    def _pass_on(self) -> None:
        self._leader = self._queue[0].turn if self._queue else None
        self._wake()

    def _wake(self) -> None:
        """Wakes who leads, or those that wait until no call is left. One that is woken without need waits again."""
        if self._leader is not None:
            self._leader.wake()
            return
        for turn in self._stopping:
            turn.wake()

    def _break(self, error: Error, later: Error) -> None:
        """Ends the calls of the frame that is under way by an error, and all others by another one."""
        self._refusal = later
        for calls, why in ((self._asked, error), (self._queue, later)):
            for call in calls:
                if not call.is_done:
                    call.take(copy.copy(why))
                    call.turn.finish(call)
        self._asked, self._leader = [], None
        self._queue.clear()
        self._wake()

    def _give_up(self, turn: Turn) -> None:
        """After an exception in a thread: leaves no other thread waiting."""
        with self._lock:
            turn.is_given_up = True
            if self._leader is turn and self._asked:
                self._break(Broken(_MAYBE_MADE), Broken(_CUT_OFF))
                return
            self._queue = deque(call for call in self._queue if call.turn is not turn)
            if self._leader is turn:
                self._pass_on()
            self._wake()
