"""Updates under the lock of an array, for asyncio: those that wait are made together."""
from __future__ import annotations

import asyncio
import collections
import typing

from .faults import Error, NotInTime, Refused
from .objects import Place, place_bytes
from .values import Currency, Integer, Value

if typing.TYPE_CHECKING:
    from .aio import Locked

# the most updates that are made while the lock is held once
MOST = 1_024
# instead of a new value: nothing is put
KEEP = object()
# returns the new value for a value, or KEEP; and the result of the update
Step = typing.Callable[[Value], typing.Tuple[object, object]]


class Update:
    """An update of a property, which waits."""

    def __init__(self, place: Place, step: Step) -> None:
        self.place, self.step = place, step
        self.bytes = place_bytes(*place)
        self.result: object = None
        self.fault: Exception | None = None
        self.future: asyncio.Future[object] = asyncio.get_running_loop().create_future()
        # whether the lock is held for it, and whether it is made without others
        self.is_begun = self.is_alone = False

    def end(self) -> None:
        """Returns the result to its task, or raises what its step has raised."""
        if self.fault is not None:
            self.fail(self.fault)
        elif not self.future.done():
            self.future.set_result(self.result)

    def fail(self, fault: BaseException) -> None:
        """Raises an exception in its task."""
        if isinstance(fault, StopIteration):
            # (which no future takes)
            fault = RuntimeError(f"a step has raised {fault!r}")
        if not self.future.done():
            self.future.set_exception(fault)


class Updates:
    """The updates of a session that wait for the same lock. `lock` makes a `Locked` that reads a
    place as soon as it has the lock."""

    def __init__(self, lock: typing.Callable[[Place], Locked]) -> None:
        self._lock = lock
        self._waiting: typing.Deque[Update] = collections.deque()
        self._task: asyncio.Task[None] | None = None

    @property
    def is_idle(self) -> bool:
        """Whether no update waits."""
        return self._task is None

    async def make(self, update: Update, timeout: float | None) -> object:
        """Makes an update, with others if they wait too. Returns its result."""
        self._waiting.append(update)
        if self._task is None:
            self._task = asyncio.ensure_future(self._work())
        try:
            if timeout is not None:
                await asyncio.wait({update.future}, timeout=timeout)
                if not update.future.done() and not update.is_begun:
                    raise NotInTime(f"the array is locked by others for {timeout:g} seconds")
            return await update.future
        except BaseException:
            if not update.is_begun:
                self._forget(update)
            raise

    def _forget(self, update: Update) -> None:
        """Makes an update no more that has not begun."""
        update.future.cancel()
        if update in self._waiting:
            self._waiting.remove(update)
            if not self._waiting and self._task is not None:
                # (another one begins with another task)
                self._task.cancel()
                self._task = None

    async def _work(self) -> None:
        fault: BaseException = asyncio.CancelledError()
        try:
            while self._waiting:
                await self._make_some(self._waiting[0])
        except Error as error:
            fault = error
        finally:
            if self._task is asyncio.current_task():
                self._task = None
                while self._waiting:
                    _end(self._waiting.popleft(), fault)

    async def _make_some(self, first: Update) -> None:
        """Waits for the lock, and makes the updates of the place of one."""
        made: list[Update] = []
        held = self._lock(first.place)
        try:
            async with held:
                made = self._begun(first)
                new = self._stepped(held.value, made) if made else KEEP
                if new is not KEEP:
                    await held.put_last(new)
        except (Refused, TypeError, ValueError, ArithmeticError) as fault:
            if not made:
                raise
            if len(made) == 1 or not held.may_repeat:
                for it in made:
                    it.fail(fault)
            else:
                # nothing was put, and one of them is at fault: each is made by itself
                self._wait_again(made, is_alone=True)
        except BaseException as fault:
            for it in made:
                _end(it, fault)
            raise
        else:
            for it in made:
                it.end()

    def _begun(self, first: Update) -> list[Update]:
        """Takes the updates of the same place out of those that wait."""
        found: list[Update] = []
        rest: typing.Deque[Update] = collections.deque()
        for it in self._waiting:
            fits = not found or not (it.is_alone or found[0].is_alone or len(found) == MOST)
            it.is_begun = fits and it.bytes == first.bytes
            (found if it.is_begun else rest).append(it)
        self._waiting = rest
        return found

    def _wait_again(self, some: list[Update], is_alone: bool = False) -> None:
        """Puts updates before those that wait."""
        for it in reversed(some):
            if not it.future.done():
                it.is_begun, it.is_alone = False, it.is_alone or is_alone
                self._waiting.appendleft(it)

    def _stepped(self, value: Value, made: list[Update]) -> object:
        """Makes the steps one after another. Returns the value to put, or KEEP."""
        put = KEEP
        for at, it in enumerate(made):
            it.fault = None
            try:
                new, it.result = it.step(value)
            except Exception as fault:
                it.fault = fault
                continue
            if new is KEEP:
                continue
            put, value = new, _as_got(new, value, it.place[1].vt)
            if value is KEEP:
                # what the server makes of it is known after the put
                self._wait_again(made[at + 1 :])
                del made[at + 1 :]
                break
        return put


def _end(update: Update, fault: BaseException) -> None:
    """Ends an update by the end of its session, or of the event loop."""
    if isinstance(fault, asyncio.CancelledError):
        update.future.cancel()
    else:
        update.fail(fault)


def _as_got(new: object, value: Value, vt: int) -> Value:
    """The value that a get returns after a put of `new` in the place of `value`, or KEEP if that is
    not known. `vt` is the declared type."""
    of = type(value)
    if type(new) is of and (of in (str, bool, Currency) or isinstance(new, Integer)):
        return new
    if type(new) is int and isinstance(value, Integer) and vt == of.vt:
        return of(new) if of.low <= new <= of.high else KEEP
    return KEEP
