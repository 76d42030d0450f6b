"""Stations send for a while, with faults and strangers all the time; at the end the store is compared with the program.

    tests/one gateway.soak --minutes 60 --stations 300 --rate 50

Two gateways and a PostgreSQL of its own. Each few seconds one thing fails: a gateway is killed, or stopped for a while
with its processes, a settling process is killed, the database, a backend of it; or the network to the database is cut.
Strangers try passwords and send rubbish. The status is 1 where an event that was answered is not stored, a reply was
not that of an event that is taken, a board is not that of whole scripts, a message had no reply for a minute, or one in
100 of the untouched messages waited for more than a second. A message is untouched if it was neither sent nor answered
within some seconds after a fault.
"""

import argparse
import asyncio
import os
import random
import signal
import socket
import sys
import time
from collections import Counter

from ocpp_board.ledger.verify import verify
from ocpp_board.store.database import open_store
from tests.cluster import (
    Cluster,
    GatewayPart,
    count_seconds,
    keep_cluster,
    kill_all,
    list_children,
)
from tests.gateway.client import find_status
from tests.gateway.conftest import fill_store
from tests.gateway.load import Load, Plan, Seen
from tests.gateway.proxy import Proxy

# Seconds between faults, and for which messages after one are touched.
PAUSES, TOUCHED = (4.0, 12.0), 8.0
EVENTS = 24


class Scene:
    """Two gateways, a database, and what fails of them."""

    def __init__(self, cluster: Cluster, words: argparse.Namespace) -> None:
        self.cluster, self.words = cluster, words
        self.name = fill_store(cluster.create("ledger"), words.stations, "L")
        self.proxy = Proxy(cluster.port)
        through = cluster.name("ledger", port=self.proxy.port)
        # One of them reaches the database by a network that is cut at times.
        self.stores = [self.name, through]
        self.gateways = [GatewayPart(one) for one in self.stores]
        self.ports = [one.port for one in self.gateways]
        self.counts = Counter[str]()
        self.moments: list[float] = []

    def fail(self) -> None:
        """One thing fails."""
        kind = random.choice(["gateway", "stopped", "settler", "database", "backend", "network"])
        self.counts[kind] += 1
        number = random.randrange(2)
        self.moments.append(time.monotonic())
        if kind == "gateway":
            self.gateways[number].kill()
            time.sleep(random.random() * 2)
            self.gateways[number] = GatewayPart(self.stores[number], "--port", self.ports[number])
        elif kind == "stopped":
            pids = [self.gateways[number].pid, *list_children(self.gateways[number].pid)]
            kill_all(pids, signal.SIGSTOP)
            time.sleep(random.random() * 3)
            kill_all(pids, signal.SIGCONT)
        elif kind == "settler":
            kill_all(list_children(self.gateways[number].pid)[:1])
        elif kind == "database":
            self.cluster.kill()
            time.sleep(random.random() * 2)
            self.cluster.start()
        elif kind == "backend":
            self.cluster.query(
                "postgres",
                "select pg_terminate_backend(pid) from pg_stat_activity where datname = 'ledger'",
            )
        else:
            self.proxy.cut()
            time.sleep(random.random() * 3)
            self.proxy.mend(random.random() < 0.5)
        self.moments.append(time.monotonic())

    async def fail_again_and_again(self) -> None:
        """Something fails each few seconds."""
        while True:
            await asyncio.sleep(random.uniform(*PAUSES))
            await asyncio.to_thread(self.fail)

    async def knock(self) -> None:
        """Strangers come."""
        while True:
            await asyncio.sleep(random.random())
            port = random.choice(self.ports)
            try:
                if random.random() < 0.5:
                    name = f"L-{random.randrange(self.words.stations)}"
                    status = await find_status(
                        f"ws://127.0.0.1:{port}/ocpp", name, "a wrong password."
                    )
                    self.counts[f"strangers got {status}"] += 1
                else:
                    _, writer = await asyncio.open_connection("127.0.0.1", port)
                    writer.write(os.urandom(2_000))
                    await asyncio.sleep(0.2)
                    writer.close()
                    self.counts["rubbish"] += 1
            except (OSError, EOFError, TimeoutError, socket.timeout):
                self.counts["strangers without an answer"] += 1
            except Exception as fault:
                self.counts[f"strangers: {type(fault).__name__}"] += 1

    async def run(self) -> Seen:
        """Plays all."""
        words = self.words
        seconds = 60 * words.minutes
        rounds = int(words.rate * seconds / words.stations / EVENTS) + 2
        urls = [f"ws://127.0.0.1:{port}/ocpp" for port in self.ports]
        plan = Plan(
            urls, words.stations, events=EVENTS, rounds=rounds, rate=words.rate, seconds=seconds
        )
        others = [asyncio.create_task(self.fail_again_and_again())]
        others += [asyncio.create_task(self.knock()) for _ in range(3)]
        seen = await Load(plan).run()
        for job in others:
            job.cancel()
        await asyncio.gather(*others, return_exceptions=True)
        return seen

    def report(self, seen: Seen) -> int:
        """What was seen, and whether all is right."""
        untouched = [
            wait
            for wait, at in zip(seen.waits, seen.moments)
            if not any(at - wait < moment + TOUCHED and at > moment for moment in self.moments)
        ]
        part = Seen(waits=untouched)
        print(f"faults and strangers: {dict(self.counts)}")
        print(f"all messages: {seen.report()}")
        for line in seen.odd[:5]:
            print(line)
        print(
            f"{len(untouched)} untouched: median / 99th / longest {part.wait(0.5):.0f} / {part.wait(0.99):.0f} / "
            f"{part.wait(1):.0f} ms"
        )
        with open_store(self.name) as store:
            (row,) = store.fetch("select count(*) as n from line")
            verified = verify(store)
        print(
            f"{row.n} lines; {verified.figures} figures compared: {verified.difference or 'all right'}"
        )
        is_right = not verified.difference and not seen.odd and not seen.late
        is_right &= part.wait(0.99) <= 1_000
        is_right &= len(seen.waits) <= row.n <= len(seen.waits) + self.words.stations
        return 0 if is_right else 1

    def end(self) -> None:
        """Ends all."""
        for one in self.gateways:
            print(f"a gateway took {count_seconds(one.pid):.0f} s of a processor since it began")
            one.stop()
        self.proxy.close()


def main() -> int:
    """Runs the soak that the words ask for."""
    parser = argparse.ArgumentParser(
        description=__doc__, formatter_class=argparse.RawDescriptionHelpFormatter
    )
    parser.add_argument("--minutes", type=float, default=5, help="how long (default: 5)")
    parser.add_argument("--stations", type=int, default=100, help="how many (default: 100)")
    parser.add_argument("--rate", type=float, default=30, help="messages a second (default: 30)")
    parser.add_argument("--seed", type=int, default=1, help="the order of faults (default: 1)")
    words = parser.parse_args()
    random.seed(words.seed)
    with keep_cluster(is_durable=True) as cluster:
        scene = Scene(cluster, words)
        try:
            seen = asyncio.run(scene.run())
            return scene.report(seen)
        finally:
            scene.end()


if __name__ == "__main__":
    sys.exit(main())
