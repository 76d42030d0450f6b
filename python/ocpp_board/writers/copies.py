"""Work of writers that copies of this process share."""

import gc
import os
from collections.abc import Callable, Sequence
from typing import TypeVar

Part = TypeVar("Part")
Work = Callable[[Part], int]

# Parts for each copy, at least, and chunks of them that it takes one after the other, at most.
FEWEST, CHUNKS = 2, 32


def share_work(
    parts: Sequence[Part], workers: int, work: Work[Part], open_copy: Callable[[], Work[Part]]
) -> int:
    """Works on parts, in copies of this process where there are enough of them, and gives the sum of what the work
    gives. `open_copy`: makes what works in a copy, which needs a store of its own. Raises what the work raises.
    """
    copies = max(1, min(workers, len(parts) // FEWEST))
    if copies == 1:
        return sum(map(work, parts))
    count, total = min(len(parts), CHUNKS * copies), 0
    chunks = [parts[place::count] for place in range(count)]
    asked, done = os.pipe(), os.pipe()
    os.write(asked[1], b"".join(place.to_bytes(4, "big") for place in range(count)))
    os.close(asked[1])
    numbers = [fork_copy(chunks, asked[0], done, open_copy) for _ in range(copies)]
    os.close(asked[0])
    os.close(done[1])
    left = set(range(count))
    with open(done[0], "rb") as file:
        while record := file.read(12):
            left.discard(int.from_bytes(record[:4], "big"))
            total += int.from_bytes(record[4:], "big")
    for number in numbers:
        os.waitpid(number, 0)
    # What a copy had that ended before its time.
    return total + sum(work(part) for place in sorted(left) for part in chunks[place])


def fork_copy(
    chunks: Sequence[Sequence[Part]],
    asked: int,
    done: tuple[int, int],
    open_copy: Callable[[], Work[Part]],
) -> int:
    """Works in a copy of this process on the chunks whose places it reads from `asked`, and gives the number of the
    process. For each chunk it writes its place and what the work gave to `done`."""
    number = os.fork()
    if number:
        return number
    gc.disable()
    status = 1
    try:
        os.close(done[0])
        work = open_copy()
        while place := os.read(asked, 4):
            total = sum(map(work, chunks[int.from_bytes(place, "big")]))
            os.write(done[1], place + total.to_bytes(8, "big"))
        status = 0
    finally:
        # Nothing of what this process does at its end is the copy's.
        os._exit(status)
