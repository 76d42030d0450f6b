"""Compares the ledger's library with a program that replays, and says how long their calls take.

    tests/one measure.ledger_library LIBRARY PROGRAM [SCRIPT ..] [--rounds 200]

LIBRARY is libocpp_ledger.so.0, PROGRAM one that replays its input, such as crates/ocpp_replay/out/ocpp_replay. Each
SCRIPT is answered by both, and by the library from four threads at once; the texts must be equal, and a buffer that is
empty, one byte too small, as large as the text and larger must be answered as the header says. Then scripts of 1, 24
and 240 messages of one station with limits that fit are timed: a call, a call from each of four threads at once, and
a run of the program, each with its middle and its greatest time of 95 in 100. The status is 1 if something differs.
"""

import argparse
import ctypes
import os
import subprocess
import sys
import threading
import time
from collections.abc import Callable
from functools import partial
from pathlib import Path

OK, TOO_SMALL = 0, 1
THREADS = 4


class Library:
    """The calls of the shared object."""

    def __init__(self, path: Path) -> None:
        library = ctypes.CDLL(str(path))
        library.ocpp_ledger_version.restype = ctypes.c_uint32
        self.version = library.ocpp_ledger_version()
        self.call = library.ocpp_ledger_answer
        self.call.restype = ctypes.c_uint32
        self.call.argtypes = [
            ctypes.c_char_p,
            ctypes.c_size_t,
            ctypes.c_void_p,
            ctypes.c_size_t,
            ctypes.POINTER(ctypes.c_size_t),
            ctypes.POINTER(ctypes.c_uint64),
        ]

    def answer_into(self, script: bytes, room: int) -> tuple[int, int, bytes]:
        """The status, how many bytes are used, and the buffer after the call, of which each byte was 0x2a."""
        buffer = (ctypes.c_char * max(1, room)).from_buffer(bytearray(b"*" * max(1, room)))
        used, work = ctypes.c_size_t(77), ctypes.c_uint64(0)
        status = self.call(
            script,
            len(script),
            ctypes.addressof(buffer),
            room,
            ctypes.byref(used),
            ctypes.byref(work),
        )
        return status, used.value, ctypes.string_at(buffer, room)

    def answer(self, script: bytes) -> bytes:
        """The text of a script."""
        room = 4096 + 4 * len(script)
        status, used, text = self.answer_into(script, room)
        if status == TOO_SMALL:
            status, used, text = self.answer_into(script, used)
        if status != OK:
            raise OSError(f"status {status}")
        return text[:used]


def replay(program: str, script: bytes) -> tuple[int, bytes]:
    """The exit status and the output of the program."""
    ended = subprocess.run(
        [program], input=script, stdout=subprocess.PIPE, stderr=subprocess.DEVNULL, check=False
    )
    return ended.returncode, ended.stdout


def is_fitted(library: Library, script: bytes, text: bytes) -> bool:
    """Whether buffers of each size are answered as the header says."""
    size = len(text)
    exact = library.answer_into(script, size) == (OK, size, text)
    larger = library.answer_into(script, size + 9) == (OK, size, text + b"*" * 9)
    if not size:
        return exact and larger
    none = library.answer_into(script, 0) == (TOO_SMALL, size, b"")
    smaller = library.answer_into(script, size - 1) == (TOO_SMALL, size, b"*" * (size - 1))
    return exact and larger and none and smaller


def differing(library: Library, program: str, scripts: list[Path]) -> int:
    """How many scripts are not answered alike; each is named."""
    differ = 0
    texts: list[tuple[bytes, bytes]] = []
    for path in scripts:
        script = path.read_bytes()
        status, text = replay(program, script)
        if status:
            continue
        texts.append((script, text))
        if library.answer(script) != text or not is_fitted(library, script, text):
            print(f"{path}: differs")
            differ += 1
    wrong = [0] * THREADS

    def answer_all(thread: int) -> None:
        for place in range(len(texts)):
            script, text = texts[(place * 7 + thread * 13) % len(texts)]
            wrong[thread] += library.answer(script) != text

    together(answer_all)
    print(f"scripts: {len(texts)}, differ: {differ}, from {THREADS} threads at once: {sum(wrong)}")
    return differ + sum(wrong)


def together(act: Callable[[int], None]) -> float:
    """How long the threads take that each do this at once."""
    threads = [threading.Thread(target=act, args=(number,)) for number in range(THREADS)]
    begun = time.perf_counter()
    for thread in threads:
        thread.start()
    for thread in threads:
        thread.join()
    return time.perf_counter() - begun


def script_of(messages: int) -> bytes:
    """A script of one transaction of one station, with limits that fit."""
    lines = [f"limits 1 {max(32, messages)} {max(32, messages)} {max(32, messages)}"]
    lines += ["station north A", "now 2026-03-01T10:00:00Z"]
    for number in range(messages):
        at = f"2026-03-01T{10 + number // 60:02}:{number % 60:02}:00Z"
        kind = "Started" if number == 0 else "Updated"
        lines.append(
            f'deliver A [2,"{number}","TransactionEvent",{{"eventType":"{kind}","timestamp":"{at}",'
            f'"triggerReason":"MeterValuePeriodic","seqNo":{number},"transactionInfo":{{"transactionId":"T1"}},'
            f'"meterValue":[{{"timestamp":"{at}","sampledValue":[{{"value":{1000 + 25 * number}}}]}}]}}]'
        )
    return ("\n".join([*lines, "board north"]) + "\n").encode()


def timed(act: Callable[[], object], rounds: int) -> str:
    """The middle and the 95th of 100 times, in microseconds."""
    times = []
    for _ in range(rounds):
        begun = time.perf_counter()
        act()
        times.append((time.perf_counter() - begun) * 1e6)
    times.sort()
    return f"{times[len(times) // 2]:,.0f} us (95 in 100: {times[len(times) * 95 // 100]:,.0f})"


def measure(library: Library, program: str, rounds: int) -> None:
    """Prints how long calls and runs take."""
    print(f"load {os.getloadavg()[0]:.1f}, rounds {rounds}")
    for messages in (1, 24, 240):
        script = script_of(messages)
        room = 2 * len(library.answer(script))
        buffer = ctypes.create_string_buffer(room)
        used, work = ctypes.c_size_t(), ctypes.c_uint64()

        def call(
            script: bytes = script,
            buffer: ctypes.Array[ctypes.c_char] = buffer,
            used: ctypes.c_size_t = used,
            work: ctypes.c_uint64 = work,
        ) -> None:
            library.call(
                script,
                len(script),
                buffer,
                len(buffer),
                ctypes.byref(used),
                ctypes.byref(work),
            )

        def call_often(_thread: int, script: bytes = script) -> None:
            for _ in range(rounds):
                library.answer(script)

        alone = timed(call, rounds)
        process = timed(partial(replay, program, script), min(rounds, 60))
        four = THREADS * rounds / together(call_often)
        print(
            f"{messages} messages: call {alone}; process {process}; {four:,.0f} calls a second on four threads"
        )


def main() -> int:
    parser = argparse.ArgumentParser(
        description=__doc__, formatter_class=argparse.RawDescriptionHelpFormatter
    )
    parser.add_argument("library", type=Path, metavar="LIBRARY", help="the shared object")
    parser.add_argument("program", metavar="PROGRAM", help="a program that replays")
    parser.add_argument("scripts", type=Path, nargs="*", metavar="SCRIPT", help="what both answer")
    parser.add_argument(
        "--rounds", type=int, default=200, metavar="N", help="how often each is timed"
    )
    words = parser.parse_args()
    library = Library(words.library)
    print(f"version {library.version}")
    differ = differing(library, words.program, words.scripts) if words.scripts else 0
    measure(library, words.program, words.rounds)
    return 1 if differ else 0


if __name__ == "__main__":
    sys.exit(main())
