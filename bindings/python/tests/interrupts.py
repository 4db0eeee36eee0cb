"""Interrupts calls of the module at random moments, and looks at what is left behind.

    interrupts.py [PROGRAMS [INTERRUPTS]]

First so many programs (200), of three forms in turn, each of which is sent one SIGINT at a random
moment: each is to end by its KeyboardInterrupt, and none to hang. Then so many interrupts (10,000)
of each kind of call, by a signal handler that raises, and by an exception that another thread sets
(fewer, where that takes a minute): each worker is to be home afterwards, and the set's close to
tell each node once. Tells how many there were of each, and says no where something was left.
"""

from __future__ import annotations

import ctypes
import gc
import random
import signal
import subprocess
import sys
import threading
import time
import traceback
from array import array
from collections.abc import Callable, Iterator
from contextlib import contextmanager

import nm_set
from nm_set import Set, _leases

NODES = 4_096
SOON = 0.0004  # seconds within which an interrupt comes
TURN = 1e-6  # seconds after which a thread that waits asks for its turn
MOST = 60.0  # seconds for which one kind of call is interrupted by another thread at most
FORMS = {
    "by the set": """
with nm_set.Set(4_096) as numbers:
    print("ready", flush=True)
    while True:
        numbers.add(5)
        numbers.discard(5)
""",
    "by a worker": """
with nm_set.Set(4_096) as numbers, numbers.attach() as worker:
    print("ready", flush=True)
    while True:
        worker.add(5)
        worker.discard(5)
""",
    "by a worker each time": """
with nm_set.Set(4_096) as numbers:
    print("ready", flush=True)
    while True:
        with numbers.attach() as worker:
            worker.add(5)
            worker.discard(5)
""",
}


class Interrupt(Exception):
    """What interrupts a call."""


def interrupted(program: str, drawn: random.Random) -> str:
    """Runs a program, sends it one SIGINT, and tells how it ended: an empty text, where it ended by
    KeyboardInterrupt."""
    words = [sys.executable, "-c", f"import nm_set\n{program}"]
    with subprocess.Popen(
        words, stdout=subprocess.PIPE, stderr=subprocess.PIPE, text=True
    ) as running:
        assert running.stdout is not None and running.stdout.readline() == "ready\n"
        time.sleep(drawn.random() * 0.02)
        running.send_signal(signal.SIGINT)
        try:
            _, told = running.communicate(timeout=60)
        except subprocess.TimeoutExpired:
            running.kill()
            return "it hangs"
    lines = told.splitlines()
    if running.returncode == -signal.SIGINT and lines[-1] == "KeyboardInterrupt":
        return "" if "Exception ignored" not in told else told
    return f"it ended with {running.returncode}: {told}"


def programs(count: int, seed: int = 0) -> list[str]:
    """Runs so many programs, some at once, and tells how those ended that did not end well."""
    drawn, faults, forms = random.Random(seed), [], list(FORMS.items())
    waiting = [(*forms[each % len(forms)], random.Random(drawn.random())) for each in range(count)]

    def run() -> None:
        while True:
            try:
                name, program, own = waiting.pop()
            except IndexError:
                return
            told = interrupted(program, own)
            if told:
                faults.append(f"{name}: {told}")

    running = [threading.Thread(target=run) for _ in range(4)]
    for thread in running:
        thread.start()
    for thread in running:
        thread.join()
    return faults


SEVERAL = array("Q", range(100, 200))


def change(numbers: Set) -> None:
    numbers.add(5)
    numbers.discard(5)


def look(numbers: Set) -> None:
    5 in numbers
    numbers.at_least(6)
    len(numbers)


def go_over(numbers: Set) -> None:
    numbers.update(range(20))
    sorted(numbers)
    numbers.pop()
    numbers &= {3, 4, 5}
    numbers.clear()


def change_many(numbers: Set) -> None:
    numbers.add_many(SEVERAL)
    numbers.contains_many(SEVERAL)
    numbers.discard_many(SEVERAL)
    numbers.collect()


def attach(numbers: Set) -> None:
    with numbers.attach(timeout=5) as worker:
        worker.add(5)
        worker.pin()


def attach_only(numbers: Set) -> None:
    numbers.attach(timeout=5).discard(5)
    worker = numbers.worker(3)
    worker.pin()
    worker.close()


def make_and_close(_: Set) -> None:
    with Set(64, workers=2) as own:
        own.add(5)
        own.discard(5)


def make_and_drop(_: Set) -> None:
    own = Set([1, 2, 3], nodes=64, workers=2)
    worker = own.attach()
    worker.add(5)
    own.add(6)


KINDS: dict[str, Callable[[Set], None]] = {
    call.__name__: call
    for call in (
        change, look, go_over, change_many, attach, attach_only, make_and_close, make_and_drop
    )
}  # fmt: skip


def count_leases() -> int:
    """How many sets and workers have not ended."""
    gc.collect()
    return len(_leases._leases)


def left_behind(numbers: Set, leases: int) -> list[str]:
    """What is wrong of a set whose calls were interrupted: a worker that is out, a close that does
    not end, a node that the report does not tell, a lease that is never given up."""
    gc.collect()  # the objects that the interrupts have left
    faults = [f"worker {worker.number} is out" for worker in numbers._attached()]
    if not faults:
        taken = [numbers.attach(timeout=5) for _ in range(numbers.workers)]
        if sorted(worker.number for worker in taken) != list(range(numbers.workers)):
            faults.append("a worker is lost")
        for worker in taken:
            worker.close()
        del taken, worker
        if len(numbers) != len(list(numbers)):
            faults.append(f"{len(numbers)} keys are counted, of {len(list(numbers))}")
        report = numbers.close()
        told = report.free + report.reached + sum(map(len, report.waiting))
        if told != numbers.nodes - 5 or report.reached != 2 * len(report):
            faults.append(f"the report tells {told} nodes")
    if count_leases() != leases + 1:
        faults.append(f"{count_leases()} leases, in place of {leases + 1}")
    return faults


def by_signals(kind: Callable[[Set], None], count: int, drawn: random.Random) -> list[str]:
    """Interrupts calls of a kind so often by a signal handler that raises."""
    leases = count_leases()
    numbers = Set(NODES)

    raised = 0

    def raise_it(*_: object) -> None:
        nonlocal raised
        raised += 1
        raise Interrupt

    def once() -> None:
        try:
            signal.setitimer(signal.ITIMER_REAL, drawn.random() * SOON + 1e-6, 1)
            while True:
                kind(numbers)
        except Interrupt:
            return

    before = signal.signal(signal.SIGALRM, raise_it)
    try:
        for _ in range(count):
            once()
    finally:
        signal.setitimer(signal.ITIMER_REAL, 0)
        signal.signal(signal.SIGALRM, before)
    lost = [f"{raised - count} of {raised} interrupts were lost"] if raised != count else []
    return lost + left_behind(numbers, leases)


class Caller(threading.Thread):
    """A thread that makes calls of a kind, and goes on behind each exception that is set in it."""

    def __init__(self, kind: Callable[[Set], None], numbers: Set) -> None:
        super().__init__(daemon=True)
        self.kind, self.numbers = kind, numbers
        self.begun = 0  # how often it has begun with its calls
        self.is_ended = False

    def run(self) -> None:
        while not self.is_ended:
            try:
                self.begun += 1
                while True:
                    self.kind(self.numbers)
            except Interrupt:
                pass

    def interrupt(self) -> None:
        ident = ctypes.c_ulong(self.ident or 0)
        ctypes.pythonapi.PyThreadState_SetAsyncExc(ident, ctypes.py_object(Interrupt))

    def comes_to(self, count: int) -> bool:
        """Waits until it has begun so often, or has ended. The interpreter drops an exception that
        comes in a finalizer, so one is set again where nothing has come of it for five seconds: no,
        where four did not do."""
        for _ in range(4):
            until = time.monotonic() + 5
            while time.monotonic() < until:
                if self.begun >= count or not self.is_alive():
                    return True
                time.sleep(0)
            self.interrupt()
        return False

    def place(self) -> str:
        """Where it is."""
        return "".join(traceback.format_stack(sys._current_frames()[self.ident or 0]))


@contextmanager
def short_turns() -> Iterator[None]:
    """Lets a thread that waits for its turn ask for it soon. One whose calls release the
    interpreter has taken the next turn mostly before a thread that sleeps is awake; by the usual
    interval of five milliseconds that one then waits for a third of a second on an idle machine."""
    before = sys.getswitchinterval()
    sys.setswitchinterval(TURN)
    try:
        yield
    finally:
        sys.setswitchinterval(before)


def interrupt_to_its_end(thread: Caller, count: int, drawn: random.Random) -> str:
    """Interrupts a thread so often, the last time for good, and tells what was wrong: an empty text,
    where it has ended."""
    until, each = time.monotonic() + MOST, 0
    while not thread.is_ended:
        each += 1
        if not thread.comes_to(each):
            return f"the thread hangs behind {each - 1} exceptions:\n{thread.place()}"
        if not thread.is_alive():
            return f"the thread has ended behind {each - 1} exceptions"
        time.sleep(drawn.random() * SOON)
        thread.is_ended = each == count or time.monotonic() > until
        thread.interrupt()
    if not thread.comes_to(each + 1):
        return f"the thread hangs behind the last exception:\n{thread.place()}"
    return ""


def by_another_thread(kind: Callable[[Set], None], count: int, drawn: random.Random) -> list[str]:
    """Interrupts the calls of a thread so often, or for a minute, by an exception that another one
    sets."""
    leases = count_leases()
    numbers = Set(NODES)
    thread = Caller(kind, numbers)
    thread.start()
    with short_turns():
        told = interrupt_to_its_end(thread, count, drawn)
    if told:
        return [told]
    thread.join()
    del thread
    return left_behind(numbers, leases)


def calls(count: int, seed: int = 0) -> list[str]:
    """Interrupts each kind of call so often in each of the two ways."""
    faults = []
    for way in (by_signals, by_another_thread):
        for name, kind in KINDS.items():
            begun = time.monotonic()
            told = way(kind, count, random.Random(seed))
            faults += [f"{way.__name__}, {name}: {each}" for each in told]
            print(f"{way.__name__} {name}: {count} at most in {time.monotonic() - begun:.1f} s", flush=True)
    return faults


def main() -> None:
    count = int(sys.argv[1]) if len(sys.argv) > 1 else 200
    each = int(sys.argv[2]) if len(sys.argv) > 2 else 10_000
    print("the calls are", "in C" if nm_set.is_native else "by ctypes", flush=True)
    faults = programs(count)
    print(f"programs: {count}, of which {len(faults)} did not end by KeyboardInterrupt", flush=True)
    faults += calls(each)
    print("\n".join(faults) or "nothing was left behind")
    sys.exit(1 if faults else 0)


if __name__ == "__main__":
    main()
