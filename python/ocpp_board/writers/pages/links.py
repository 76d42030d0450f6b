"""Where pages are: files beside each other, or addresses of a server."""

from datetime import date
from typing import Protocol
from urllib.parse import quote

from ocpp_board.writers.files import name_file


class Links(Protocol):
    """The addresses of pages. `number`: that of a page of a list that has several, from 1 on."""

    def index(self) -> str:
        """The page of all sites."""

    def site(self, site: str) -> str:
        """The page of a site."""

    def month(self, site: str, station: str | None, month: date) -> str:
        """The page of a month of a site, or of one of its stations."""

    def day(self, site: str, station: str | None, day: date, number: int = 1) -> str:
        """The page of a day of a site, or of one of its stations."""

    def station(self, site: str, station: str) -> str:
        """The page of a station."""

    def session(self, site: str, station: str, transaction_id: str) -> str:
        """The page of a transaction."""

    def listing(self, site: str, name: str, number: int = 1) -> str:
        """The page of a list of a site: stations, findings, lacking, refused, deeds or closings."""

    def closing(self, site: str, number: int) -> str:
        """The page of a closing of a site."""

    def operate(self, site: str, station: str, transaction_id: str) -> str:
        """Where an operator voids events of a transaction; empty where nobody can."""


def number_page(name: str, number: int) -> str:
    """Names the file of a page of a list."""
    return f"{name}.html" if number == 1 else f"{name}.{number}.html"


class FilePaths:
    """The files of pages, below the folder of all."""

    def lead(self, path: str) -> str:
        """Leads to a file."""
        return path

    def index(self) -> str:
        """The page of all sites."""
        return self.lead("index.html")

    def site(self, site: str) -> str:
        """The page of a site."""
        return self.lead(f"{name_file(site)}/index.html")

    def scope(self, site: str, station: str | None) -> str:
        """The folder of a site, or of one of its stations."""
        return name_file(site) + (f"/{name_file(station)}" if station is not None else "")

    def month(self, site: str, station: str | None, month: date) -> str:
        """The page of a month."""
        return self.lead(f"{self.scope(site, station)}/{month:%Y-%m}.html")

    def day(self, site: str, station: str | None, day: date, number: int = 1) -> str:
        """The page of a day."""
        return self.lead(f"{self.scope(site, station)}/{number_page(f'{day}', number)}")

    def station(self, site: str, station: str) -> str:
        """The page of a station."""
        return self.lead(f"{self.scope(site, station)}/index.html")

    def session(self, site: str, station: str, transaction_id: str) -> str:
        """The page of a transaction."""
        return self.lead(f"{self.scope(site, station)}/session-{name_file(transaction_id)}.html")

    def listing(self, site: str, name: str, number: int = 1) -> str:
        """The page of a list of a site."""
        return self.lead(f"{name_file(site)}/{number_page(name, number)}")

    def closing(self, site: str, number: int) -> str:
        """The page of a closing of a site."""
        return self.lead(f"{name_file(site)}/closing-{number}.html")


class FileLinks(FilePaths):
    """The same as a page links to them that is in a folder below."""

    def __init__(self, path: str) -> None:
        """`path`: that of the page with the links."""
        self.up = "../" * path.count("/")

    def lead(self, path: str) -> str:
        """Leads to a file."""
        return self.up + quote(path)

    def operate(self, site: str, station: str, transaction_id: str) -> str:
        """Nobody voids events by a file."""
        return ""


class WebLinks:
    """The addresses of a server's pages. Below a site everything is at its address."""

    def index(self) -> str:
        """The page of all sites."""
        return "/"

    def site(self, site: str) -> str:
        """The page of a site."""
        return f"/site/{quote(site, safe='')}"

    def scope(self, site: str, station: str | None) -> str:
        """The address of a site, or of one of its stations."""
        return self.site(site) + (f"/station/{quote(station, safe='')}" if station else "")

    def month(self, site: str, station: str | None, month: date) -> str:
        """The page of a month."""
        return f"{self.scope(site, station)}/month/{month:%Y-%m}"

    def day(self, site: str, station: str | None, day: date, number: int = 1) -> str:
        """The page of a day."""
        page = f"?page={number}" if number > 1 else ""
        return f"{self.scope(site, station)}/day/{day}{page}"

    def station(self, site: str, station: str) -> str:
        """The page of a station."""
        return self.scope(site, station)

    def session(self, site: str, station: str, transaction_id: str) -> str:
        """The page of a transaction."""
        return f"{self.scope(site, station)}/session/{quote(transaction_id, safe='')}"

    def listing(self, site: str, name: str, number: int = 1) -> str:
        """The page of a list of a site."""
        return f"{self.site(site)}/{name}" + (f"?page={number}" if number > 1 else "")

    def closing(self, site: str, number: int) -> str:
        """The page of a closing of a site."""
        return f"{self.site(site)}/closing/{number}"

    def operate(self, site: str, station: str, transaction_id: str) -> str:
        """Where an operator voids events of a transaction."""
        return f"/operate?station={quote(station, safe='')}&transaction={quote(transaction_id, safe='')}"
