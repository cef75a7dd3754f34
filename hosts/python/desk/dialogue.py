"""A solver as a process: what is said to it, and what it answers within its time."""

from __future__ import annotations

import os
import re
import selectors
import signal
import subprocess
import time
from typing import List, Sequence, Set, Union

LONGEST_ANSWER = 1 << 20
DEEPEST_ANSWER = 64
ENDED = "ended before it had answered"

Answer = Union[str, List["Answer"]]

_TOKEN = re.compile(rb'\s*(?:;[^\n]*\n\s*)*([()]|"[^"]*(?:""[^"]*)*"(?!")|\|[^|]*\||[^\s()"|;]+)')


class NoAnswer(Exception):
    """Why there is no answer, in words."""


class OutOfTime(NoAnswer):
    """There is no answer as the time is up."""


class Dialogue:
    """One process of a solver, with the time on the monotonic clock by which it has to be done. As a context it leaves no process behind."""

    _live: Set[Dialogue] = set()

    def __init__(self, command: Sequence[str], end: float) -> None:
        self._end = end
        self._heard = b""
        self._open: List[List[Answer]] = [[]]
        self._length = 0
        try:
            self._process = subprocess.Popen(
                list(command),
                stdin=subprocess.PIPE,
                stdout=subprocess.PIPE,
                stderr=subprocess.DEVNULL,
                bufsize=0,
                start_new_session=True,
            )
        except (OSError, ValueError) as fault:
            raise NoAnswer(f"could not be started: {getattr(fault, 'strerror', None) or fault}") from fault
        assert self._process.stdin is not None and self._process.stdout is not None
        self._in, self._out = self._process.stdin, self._process.stdout
        for pipe in (self._in, self._out):
            os.set_blocking(pipe.fileno(), False)
        Dialogue._live.add(self)

    @staticmethod
    def end_all() -> None:
        """Ends every process that is at work, so that nobody waits for one in vain."""
        for dialogue in list(Dialogue._live):
            dialogue._kill()

    def __enter__(self) -> Dialogue:
        return self

    def __exit__(self, *_: object) -> None:
        self._kill()
        for pipe in (self._in, self._out):
            pipe.close()
        self._process.wait()
        Dialogue._live.discard(self)

    def _kill(self) -> None:
        try:
            os.killpg(self._process.pid, signal.SIGKILL)
        except (ProcessLookupError, PermissionError):
            pass

    def ask(self, commands: str) -> Answer:
        """Says the commands, and gives the first answer that has not been given yet."""
        unsaid = commands.encode()
        while True:
            answer = None if unsaid else self._parsed()
            if answer is not None:
                self._length = len(self._heard)
                return answer
            unsaid = self._wait(unsaid)

    def _wait(self, unsaid: bytes) -> bytes:
        """Waits until something can be said or heard, says or hears it, and gives what is unsaid still. Behind the end nothing is heard."""
        left = self._end - time.monotonic()
        with selectors.DefaultSelector() as selector:
            selector.register(self._out, selectors.EVENT_READ)
            if unsaid:
                selector.register(self._in, selectors.EVENT_WRITE)
            ready = selector.select(left) if left > 0 else []
        if not ready:
            raise OutOfTime("gave no answer in time")
        asked = unsaid
        for key, _ in ready:
            if key.fileobj is not self._out:
                unsaid = self._say(unsaid)
            elif not self._hear():
                if not asked:
                    raise NoAnswer(self._ended())
                unsaid = b""  # it reads no more either; what it has said by then still counts
        return unsaid

    def _say(self, unsaid: bytes) -> bytes:
        try:
            return unsaid[os.write(self._in.fileno(), unsaid[:65536]) :]
        except BlockingIOError:
            return unsaid
        except OSError:
            return b""  # it reads no more; what it has said by then still counts

    def _hear(self) -> bool:
        """Hears a piece; whether there was one."""
        piece = os.read(self._out.fileno(), 65536)
        self._heard += piece
        self._length += len(piece)
        if self._length > LONGEST_ANSWER:
            raise NoAnswer(f"said more than {LONGEST_ANSWER >> 20} MiB")
        return bool(piece)

    def _ended(self) -> str:
        """How its output came to an end. A process that has ended is not waited for yet, so that its number stays its own."""
        for _ in range(20):
            try:
                told = os.waitid(os.P_PID, self._process.pid, os.WEXITED | os.WNOHANG | os.WNOWAIT)
            except ChildProcessError:
                return ENDED
            if told is not None:
                signalled = told.si_code in (os.CLD_KILLED, os.CLD_DUMPED)
                return f"was ended by signal {told.si_status} before it had answered" if signalled else ENDED
            time.sleep(0.01)
        return "closed its output before it had answered"

    def _parsed(self) -> Union[Answer, None]:
        """The first whole answer of what was heard; none where it is not whole yet. Tokens are taken away from it as they are read."""
        at = 0
        try:
            while True:
                found = _TOKEN.match(self._heard, at)
                if not found or (found.end() == len(self._heard) and found[1] not in b"()"):
                    return None
                at = found.end()
                answer = self._read(found[1].decode(errors="replace"))
                if answer is not None:
                    return answer
        finally:
            self._heard = self._heard[at:]

    def _read(self, token: str) -> Union[Answer, None]:
        """Reads a token into the lists that are open; gives the answer that it completes, where it does."""
        if (token == ")" and len(self._open) == 1) or len(self._open) > DEEPEST_ANSWER:
            raise NoAnswer("said what is no answer of SMT-LIB 2")
        if token == "(":
            self._open.append([])
            return None
        piece: Answer = self._open.pop() if token == ")" else token
        if len(self._open) == 1:
            return piece
        self._open[-1].append(piece)
        return None
