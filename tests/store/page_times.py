"""Measures how long each page of a store takes, as `web` makes it: reading its views and rendering it.

    tests/one store.page_times STORE [--times N]

It takes the store's first site, its first station, and the last transaction of that. The times are of one process; HTTP
and the sending are not in them.
"""

import argparse
import statistics
import time
from collections.abc import Callable
from datetime import date

from ocpp_board.store.database import open_store
from ocpp_board.writers.pages.context import Context, PageOptions
from ocpp_board.writers.pages.day_book import DayBook
from ocpp_board.writers.pages.day_pages import make_day_page, make_station_day_page
from ocpp_board.writers.pages.links import WebLinks
from ocpp_board.writers.pages.list_pages import LISTS, make_list_page
from ocpp_board.writers.pages.month_pages import make_month_page
from ocpp_board.writers.pages.reader import Reader
from ocpp_board.writers.pages.session_pages import make_session_page
from ocpp_board.writers.pages.site_pages import make_index, make_site_page, read_sites
from ocpp_board.writers.pages.station_pages import make_station_page
from ocpp_board.writers.pages.summaries import read_summaries

Page = Callable[[Context], object]


def make_pages(context: Context) -> dict[str, Page]:
    """What makes each page."""
    reader = context.reader
    site = reader.sites()[0]
    station = reader.site_stations(site.name)[0]
    session = reader.latest_sessions(site.name, station, 1)[0]
    assert session.last_at
    day = context.calendar(site).day(session.last_at)
    month = day.replace(day=1)
    found = read_summaries(reader, site.name, station)[station]

    def make_all(one: Context) -> object:
        return make_index(one, read_sites(one, one.reader.sites()))

    def make_site(one: Context) -> object:
        stations = read_summaries(one.reader, site.name)
        return make_site_page(one, site, stations, one.reader.count_refused(site.name))

    def make_list(name: str) -> Page:
        def make(one: Context) -> object:
            stations = read_summaries(one.reader, site.name) if name == "stations" else {}
            return make_list_page(one, site, name, stations)[0]

        return make

    def make_station(one: Context) -> object:
        return make_station_page(one, site, read_summaries(one.reader, site.name, station)[station])

    return {
        "all sites": make_all,
        "site": make_site,
        **{name: make_list(name) for name in LISTS},
        "month": lambda one: make_month_page(one, site, None, month),
        "day": lambda one: make_day_page(one, site, day)[0],
        "station": make_station,
        "station's month": lambda one: make_month_page(one, site, station, month),
        "station's day": lambda one: make_station_day_page(one, site, station, day, found.found),
        "session": lambda one: make_session_page(
            one, site, session, one.reader.session_findings(session)
        ),
    }


def main() -> None:
    """Prints how long each page takes in the median, and how many bytes it has."""
    parser = argparse.ArgumentParser(
        description=__doc__, formatter_class=argparse.RawDescriptionHelpFormatter
    )
    parser.add_argument("store")
    parser.add_argument("--times", type=int, default=5)
    words = parser.parse_args()
    with open_store(words.store) as store:
        reader = Reader(store)

        def open_context() -> Context:
            return Context(reader, WebLinks(), PageOptions(), DayBook(reader))

        print(f"{date.today()}: {words.store}")
        for name, make in make_pages(open_context()).items():
            took, worked = list[float](), list[float]()
            for _ in range(words.times):
                begun, before = time.perf_counter(), time.process_time()
                page = make(open_context())
                took.append(1_000 * (time.perf_counter() - begun))
                worked.append(1_000 * (time.process_time() - before))
            size = len(str(page).encode())
            median, most = statistics.median(took), statistics.median(worked)
            times = f"{median:8.1f} ms, {most:8.1f} ms of a processor"
            print(f"{name:16} {times}, {size:9,} bytes", flush=True)


if __name__ == "__main__":
    main()
