"""The figures of a gateway at /metrics, by Prometheus' client, and whether it is well at /health."""

import json
import threading
import time
from collections.abc import Callable, Iterator, Mapping
from socketserver import ThreadingMixIn
from typing import TYPE_CHECKING, Any
from wsgiref.simple_server import WSGIRequestHandler, WSGIServer

from prometheus_client import CollectorRegistry, ProcessCollector, make_wsgi_app
from prometheus_client.core import CounterMetricFamily, GaugeMetricFamily, HistogramMetricFamily

from ocpp_board.errors import UsageError
from ocpp_board.ledger.mending import MENDED
from ocpp_board.version import version

if TYPE_CHECKING:
    from ocpp_board.gateway.gateway import Gateway

FRONT = "ocpp_board_gateway_"
# Seconds in which stations that connect again are counted, and after which an event loop that did not run is not well.
LATELY, STUCK = 900.0, 10.0
# Seconds for a request.
REQUEST = 10.0


class Repeated:
    """Connections that ended because their station connected again."""

    def __init__(self) -> None:
        self.total = 0
        # The last times by station.
        self.times: dict[str, list[float]] = {}

    def add(self, station: str) -> None:
        """One ended."""
        self.total += 1
        self.times[station] = [*self.times.get(station, [])[-99:], time.monotonic()]

    def list_often(self) -> dict[str, int]:
        """How often each station came again lately, where that was more than once; who did not is forgotten."""
        begin, found = time.monotonic() - LATELY, dict[str, int]()
        for station, times in list(self.times.items()):
            count = sum(at > begin for at in times)
            if count > 1:
                found[station] = count
            elif not count:
                self.times.pop(station, None)
        return found


class Figures:
    """What Prometheus' client asks for what there is."""

    def __init__(self, gateway: "Gateway") -> None:
        self.gateway = gateway

    def collect(self) -> Iterator[Any]:
        """All figures as they are at the moment."""
        gateway, lanes, door = self.gateway, self.gateway.lanes, self.gateway.door
        now, waits = time.monotonic(), [one.since for one in list(lanes.waiting)]

        def gauge(name: str, about: str, value: float) -> Any:
            return GaugeMetricFamily(FRONT + name, about, value)

        def counter(name: str, about: str, value: float) -> Any:
            return CounterMetricFamily(FRONT + name, about, value)

        def by_site(name: str, about: str, values: Mapping[str, float]) -> Any:
            family = GaugeMetricFamily(FRONT + name, about, labels=["site"])
            for site, value in values.items():
                family.add_metric([site], value)
            return family

        info = GaugeMetricFamily(FRONT + "info", "The gateway's version.", labels=["version"])
        info.add_metric([version()], 1)
        yield info
        yield gauge("loop_age_seconds", "Seconds since the event loop ran last.", now - gateway.ran)
        yield gauge("stations", "Stations that are connected.", len(gateway.served))
        yield gauge("waiting", "Messages that wait for their reply.", len(waits))
        oldest = now - min(waits, default=now)
        yield gauge("oldest_wait_seconds", "For how long the oldest of them waits.", oldest)
        yield gauge("store_up", "Whether the store answers.", float(is_up(gateway)))
        yield gauge("open", "Whether stations need no password.", float(gateway.options.open))
        yield gauge("slowed", "Tries that wait because of earlier wrong ones.", door.slowed)
        yield counter("let_in", "Connections that were let in.", gateway.let_in)
        wrong = "Tries with a wrong password or an unknown name."
        yield counter("wrong_passwords", wrong, door.wrong)
        replaced = "Connections that ended because their station connected again."
        yield counter("replaced", replaced, gateway.repeated.total)
        often = GaugeMetricFamily(
            FRONT + "station_replaced",
            "How often a station did so in 15 minutes, from the second time on.",
            labels=["station"],
        )
        for station, count in gateway.repeated.list_often().items():
            often.add_metric([station], count)
        yield often
        paced = "How often a station had to wait because it sent too much."
        yield counter("paced", paced, gateway.counts["paced"])
        yield gauge("lanes", "Batches that may be stored at once.", len(lanes.lanes))
        strays = "Messages of stations that no site has."
        yield gauge("store_strays", strays, gateway.figures.strays)
        figures = gateway.figures
        ages = "Seconds since the last closing of a site."
        yield by_site("store_closing_age_seconds", ages, figures.closing_ages)
        silent = f"Sessions that lack messages and are silent for {gateway.options.silent} hours."
        yield by_site("store_silent_sessions", silent, figures.silent)
        waiting = "Refused texts that wait for a decision."
        yield by_site("store_refused_waiting", waiting, figures.waiting)
        counts = lanes.counts
        yield counter("batches", "Batches that were settled or tried.", counts["batches"])
        failed = "Batches that the store did not take, and that were tried again."
        yield counter("batches_failed", failed, counts["batches_failed"])
        yield counter("failed", "Messages that could not be stored.", counts["failed"])
        given_up = "Messages without a reply in time; their connections were closed."
        yield counter("given_up", given_up, counts["given_up"])
        seconds = "Seconds of a processor of the settling processes."
        yield counter("settling_processor_seconds", seconds, lanes.waits.processor)
        yield counter("batch_seconds", "Seconds that batches took.", lanes.waits.batches)
        outcomes = CounterMetricFamily(
            FRONT + "messages", "Messages that were answered, by outcome.", labels=["outcome"]
        )
        for outcome, count in list(lanes.outcomes.items()):
            outcomes.add_metric([outcome], count)
        yield outcomes
        refused = CounterMetricFamily(
            FRONT + "refused", "Messages that were refused, by name.", labels=["name"]
        )
        for name, count in list(lanes.refusals.items()):
            refused.add_metric([name], count)
        yield refused
        mended = CounterMetricFamily(
            FRONT + "mended", "Messages that were mended, by fault.", labels=["fault"]
        )
        for name, count in list(lanes.mended.items()):
            mended.add_metric([name.removeprefix(MENDED)], count)
        yield mended
        buckets, total = list[tuple[str, float]](), 0
        for bound, count in zip((*lanes.waits.BOUNDS, float("inf")), lanes.waits.buckets):
            total += count
            buckets.append(("+Inf" if bound == float("inf") else str(bound), total))
        yield HistogramMetricFamily(
            FRONT + "wait_seconds",
            "Seconds from a message to its answer.",
            buckets=buckets,
            sum_value=lanes.waits.sum,
        )


def is_up(gateway: "Gateway") -> bool:
    """Whether the store answers who is let in, and what is settled."""
    return gateway.clerk.is_up and gateway.lanes.are_up


def say_health(gateway: "Gateway") -> tuple[bool, dict[str, object]]:
    """Whether a gateway is well, and what it says of that."""
    age = time.monotonic() - gateway.ran
    is_well = is_up(gateway) and age < STUCK
    said: dict[str, object] = {
        "part": "gateway",
        "version": version(),
        "well": is_well,
        "store": is_up(gateway),
        "stations": len(gateway.served),
    }
    return is_well, said | ({"stuck": round(age)} if age >= STUCK else {})


class Handler(WSGIRequestHandler):
    """Logs no requests, and waits for none that does not come."""

    timeout = REQUEST

    def log_message(self, *_words: object) -> None:
        """Logs nothing."""


class Server(ThreadingMixIn, WSGIServer):
    """A thread for each request."""

    daemon_threads = True


def serve_figures(place: tuple[str, int] | None, gateway: "Gateway") -> None:
    """Serves the figures there from now on, in threads of their own, so that they also report an event loop that
    hangs. Raises UsageError."""
    if place is None:
        return
    registry = CollectorRegistry(auto_describe=False)
    registry.register(Figures(gateway))
    ProcessCollector(registry=registry)
    metrics = make_wsgi_app(registry)

    def answer(request: dict[str, Any], begin: Callable[..., Any]) -> Any:
        if request["PATH_INFO"] == "/metrics":
            return metrics(request, begin)
        if request["PATH_INFO"] == "/health":
            is_well, said = say_health(gateway)
            status = "200 OK" if is_well else "503 Service Unavailable"
            begin(status, [("Content-Type", "application/json")])
            return [json.dumps(said).encode() + b"\n"]
        begin("404 Not Found", [("Content-Type", "text/plain")])
        return [b"there are /metrics and /health\n"]

    try:
        server = Server(place, Handler)
    except OSError as fault:
        raise UsageError(f"--metrics {place[0]}:{place[1]}: {fault.strerror}") from None
    server.set_app(answer)
    threading.Thread(target=server.serve_forever, name="metrics", daemon=True).start()
