"""The shapes of logs of a CSMS: what each line says of a station, a time and a message."""

import argparse
import csv
import re
from collections.abc import Callable, Mapping
from dataclasses import dataclass
from typing import Any, NamedTuple, Protocol

from ocpp_board.errors import UsageError
from ocpp_board.escapes import shown
from ocpp_board.limits import LONGEST_LOG_LINE
from ocpp_board.messages.texts import Members, Refused, members_of, object_of
from ocpp_board.words import pick_options

FORMS = """\
The shapes of logs that --form names; those of other projects as far as known:

  json           a JSON object a line; the options below name its fields, payload.frame the field frame of an object
                 in the field payload
  ocpp           what the Python package `ocpp` logs, with or without a time in front. Other lines are left out:
                     INFO:ocpp:CS-01: receive message [2,"1","Heartbeat",{}]
                     2026-03-01 08:00:00,123 INFO ocpp CS-01: receive message [2,"1","Heartbeat",{}]
  citrineos      rows of CitrineOS's table OCPPMessages as JSON objects, one a line, as by row_to_json:
                     {"stationId":"CS-01","origin":"cs","timestamp":"2026-03-01T08:00:00Z","message":[2,..]}
  citrineos-csv  the same by COPY .. CSV HEADER, a row a line
  maeve          MaEVe's MQTT messages as `mosquitto_sub -v -t 'cs/in/#'` prints them:
                     cs/in/ocpp2.0.1/CS-01 {"type":"call","action":"Heartbeat","id":"1","request":{}}
  arrows         lines with an arrow that points to who received the message, with or without a time in front;
                 --incoming names the arrow of what stations sent where it points the other way. Other lines are left
                 out:
                     2026-03-01T08:00:00Z CS-01 -> CSMS: [2,"1","Heartbeat",{}]
                     2026-03-01T08:00:00Z CS-01 <- [3,"1",{}]

--regex PATTERN reads any other log: a regular expression of Python that is looked for in each line, with the groups
`station` and `message` and, where the log has them, `time`, `site`, `direction` and `protocol`:

    --regex '^(?P<time>\\S+) (?P<station>\\S+) (?P<direction>in|out): (?P<message>\\[.*)'

All but `json` and --regex name no site (--site, --site-map or --stations does). A time is of RFC 3339, or a number of
seconds, milliseconds, microseconds or nanoseconds since 1970; a log without times gives no `now` lines. Lines that are
of no form, of OCPP 1.6 or of the CSMS are left out and counted."""

PROTOCOL = "ocpp2.0.1"
# The versions whose messages are taken: what 2.1 has of 2.0.1 is the same.
OURS = re.compile(r"(?:ocpp)?[ _/-]*v?2[._](?:0[._]1|1(?:[._]0)?)", re.IGNORECASE)
RIGHT, LEFT = "\N{RIGHTWARDS ARROW}", "\N{LEFTWARDS ARROW}"
ARROWS = rf"[-=~]{{1,3}}>{{1,2}}|<{{1,2}}[-=~]{{1,3}}|>{{2,3}}|<{{2,3}}|{RIGHT}|{LEFT}"
# The names by which logs call the other side of a station.
CENTRAL = re.compile(r"(?:csms|cs|server|backend|central(?:[-_ ]?system)?|system)", re.IGNORECASE)
FIELDS = ("site", "station", "time", "message")


class Entry(NamedTuple):
    """What a line of a log says; its site and its time only if the form has them."""

    site: str | None
    station: str
    time: str | None
    message: str
    is_stations: bool = True
    # Which other version of OCPP it is of; empty where it is of one that is taken.
    version: str = ""


def make_old(version: Any, station: Any, time: str | None = None, site: Any = None) -> Entry:
    """A line of another version."""
    names = (name if isinstance(name, str) else "" for name in (station, site))
    name, of_site = names
    return Entry(of_site or None, name, time, "", False, str(version))


class Form(Protocol):
    """A shape of logs."""

    def read(self, text: str) -> Entry | None:
        """What a line says; None where it is another's. Raises Refused where it can't be taken."""


def find_member(entry: dict[str, Any], field: str) -> Any:
    """The member of this name, or else the one that a dotted name leads to. None where there is none."""
    if field in entry or "." not in field:
        return entry.get(field)
    first, _, rest = field.partition(".")
    inner = entry.get(first)
    return find_member(inner, rest) if isinstance(inner, dict) else None


def find_text(of: Members, field: str) -> str:
    """The text as it is written of a member that is there, also by a dotted name."""
    if field in of.texts:
        return of.texts[field]
    first, _, rest = field.partition(".")
    return find_text(members_of(of.texts[first]), rest)


def require_text(entry: dict[str, Any], field: str, what: str = "") -> str:
    """A member that has to be a text. Raises Refused where it is not. `what`: of what it is the field."""
    value = entry.get(field)
    if isinstance(value, str):
        return value
    value = find_member(entry, field)
    if isinstance(value, str):
        return value
    raise Refused(
        f"{shown(field)} is {'missing' if value is None else 'no text'}{name_option(what)}"
    )


def name_option(what: str) -> str:
    """Which option names the field of this, for a reader; empty where it has none."""
    return f" (--{what}-field names another field)" if what else ""


def find_time(entry: dict[str, Any], field: str) -> str | None:
    """A member that is a time: a text, or a number as digits. None where it is neither."""
    value = entry.get(field)
    if value is None:
        value = find_member(entry, field)
    return f"{value:.3f}" if isinstance(value, float) else value if isinstance(value, str) else None


def is_old(protocol: Any) -> bool:
    """Whether a version of OCPP that a log names is none that is taken; where it names none it is not."""
    return bool(protocol) and not OURS.fullmatch(str(protocol))


class JsonForm(NamedTuple):
    """JSON objects with fields of these names, and how their messages are written."""

    site: str = "site"
    station: str = "station"
    time: str = "time"
    message: str = "message"
    # A field with the version of OCPP.
    protocol: str | None = None
    # A field that says who sent the message, and what it says where a station did.
    direction: str | None = None
    incoming: str = "in"
    # The message is an array or object and not a string.
    is_json_message: bool = False
    # The site is in the line.
    has_site: bool = True

    def read(self, text: str) -> Entry | None:
        """What an object says; its site if the fields have one."""
        of = members_of(text) if self.is_json_message else Members(object_of(text), {})
        entry = of.values
        if self.protocol and is_old(version := find_member(entry, self.protocol)):
            site = find_member(entry, self.site) if self.has_site else None
            time = find_time(entry, self.time)
            return make_old(version, find_member(entry, self.station), time, site)
        site = require_text(entry, self.site, "site") if self.has_site else None
        station = require_text(entry, self.station, "station")
        at = find_time(entry, self.time)
        is_stations = self.direction is None or require_text(entry, self.direction) == self.incoming
        return Entry(site, station, at, self.find_frame(of), is_stations)

    def find_frame(self, of: Members) -> str:
        """The message as the station sent it."""
        field = self.message
        if not self.is_json_message:
            return require_text(of.values, field, "message")
        value = find_member(of.values, field)
        if isinstance(value, (dict, list)):
            return find_text(of, field)
        why = "missing" if value is None else "no array or object"
        raise Refused(f"{shown(field)} is {why}{name_option('message')}")


class RegexForm:
    """Lines that a regular expression finds; its groups have the names of the fields."""

    def __init__(self, pattern: re.Pattern[str], incoming: str) -> None:
        self.pattern, self.incoming = pattern, incoming

    def read(self, text: str) -> Entry | None:
        """What a line says; None where the expression is not found."""
        match = self.pattern.search(text.removesuffix("\n").removesuffix("\r"))
        if match is None:
            return None
        groups = match.groupdict()
        if is_old(version := groups.get("protocol")):
            return make_old(version, groups["station"], groups.get("time"), groups.get("site"))
        if groups["station"] is None or groups["message"] is None:
            return None
        way = groups.get("direction")
        is_stations = way is None or way == self.incoming
        site, time = groups.get("site"), groups.get("time")
        return Entry(site, groups["station"], time, groups["message"], is_stations)


class ArrowForm:
    """Lines with an arrow between a station and its CSMS, or at a station, before the message."""

    LINE = re.compile(
        rf"(?:.*? )??(?P<from>[^ :]*[^ :=~<>-])?:? ?(?P<arrow>{ARROWS}) ?(?P<to>[^ :\[]+)?:? ?"
        r"(?P<message>\[ ?[2-6] ?,.*)",
        re.DOTALL,
    )

    def __init__(self, incoming: str | None = None) -> None:
        """`incoming`: the arrow of what stations sent, where it points to them."""
        self.incoming = incoming

    def read(self, text: str) -> Entry | None:
        """What a line says; None where it has no arrow before a message."""
        text = text.removesuffix("\n").removesuffix("\r")
        match = self.LINE.match(text)
        if match is None:
            return None
        left, right = match["from"], match["to"]
        names = [name for name in (left, right) if name and not CENTRAL.fullmatch(name)]
        if left and right and TIME.fullmatch(left):
            names.remove(left)
            left = None
        if len(names) != 1:
            return None
        points_right = ">" in match["arrow"] or match["arrow"] == RIGHT
        is_stations = points_right == (names[0] == left)
        if self.incoming is not None:
            is_stations = match["arrow"] == self.incoming
        found = TIME.match(text)
        return Entry(None, names[0], found[0] if found else None, match["message"], is_stations)


TIME = re.compile(
    r"(?:\d{4}-\d\d-\d\d[T ]\d\d:\d\d:\d\d(?:[.,]\d+)?(?:Z|[+-]\d\d(?::?\d\d)?)?|\d{9,19}(?:\.\d+)?)(?![^ ])"
)


class OcppForm:
    """Lines that the Python package `ocpp` logs."""

    LINE = re.compile(
        r"(?:.*? )??(?:(?:DEBUG|INFO|WARNING|ERROR|CRITICAL):[^: ]+:)?(?P<station>[^ ]+): "
        r"(?P<way>receive message|send) (?P<message>\[.*)",
        re.DOTALL,
    )

    def read(self, text: str) -> Entry | None:
        """What a line says; None where it has no message."""
        text = text.removesuffix("\n").removesuffix("\r")
        match = self.LINE.match(text)
        if match is None:
            return None
        found = TIME.match(text)
        time = found[0] if found else None
        is_stations = match["way"] != "send"
        return Entry(None, match["station"], time, match["message"], is_stations)


class CitrineForm:
    """Rows of CitrineOS as JSON objects."""

    def read(self, text: str) -> Entry | None:
        """What a row says."""
        return self.read_row(members_of(text))

    @staticmethod
    def read_row(row: Members) -> Entry:
        """What the columns of a row say."""
        values = row.values
        protocol, origin = values.get("protocol") or PROTOCOL, require_text(values, "origin")
        if is_old(protocol):
            return make_old(protocol, values.get("stationId"), find_time(values, "timestamp"))
        if origin not in ("cs", "csms"):
            raise Refused("'origin' is neither cs nor csms", shown(origin))
        is_json = isinstance(values.get("message"), (dict, list))
        frame = row.texts["message"] if is_json else require_text(values, "message")
        station, time = require_text(values, "stationId"), find_time(values, "timestamp")
        return Entry(None, station, time, frame, origin == "cs")


class CitrineCsvForm:
    """The same rows as CSV; the first line names the columns."""

    COLUMNS = {"stationId", "origin", "timestamp", "message"}

    def __init__(self) -> None:
        self.heads: list[str] | None = None
        csv.field_size_limit(LONGEST_LOG_LINE)

    def read(self, text: str) -> Entry | None:
        """What a row says; None of the first. Raises UsageError where that names too few columns."""
        try:
            rows = list(csv.reader([text], strict=True))
        except csv.Error as fault:
            raise Refused("not a row of CSV", str(fault)) from None
        cells = rows[0] if rows else []
        if self.heads is None:
            self.heads = cells
            if missing := self.COLUMNS - set(cells):
                raise UsageError(f"line 1 names no column {', '.join(sorted(missing))}")
            return None
        if cells == self.heads:
            return None  # Another file of the same columns begins.
        if len(cells) != len(self.heads):
            raise Refused("a row has more or fewer cells than the first line", str(len(cells)))
        return CitrineForm.read_row(Members(dict(zip(self.heads, cells)), {}))


class MaeveForm:
    """MaEVe's MQTT messages: lines of a topic and an object; the frame is made from them."""

    LINE = re.compile(
        r"(?:\S*/)?cs/(?P<way>in|out)/(?P<protocol>[^/ ]+)/(?P<station>[^/ ]+) (?P<object>.*)",
        re.DOTALL,
    )

    def read(self, text: str) -> Entry | None:
        """What a message says; None where the line is not a topic, a blank and an object."""
        match = self.LINE.match(text)
        if match is None:
            return None
        if is_old(match["protocol"]):
            return make_old(match["protocol"], match["station"])
        frame = self.make_frame(members_of(match["object"]))
        return Entry(None, match["station"], None, frame, match["way"] == "in")

    @staticmethod
    def make_frame(message: Members) -> str:
        """The frame of an object; of an answer no more than that it is one."""
        kind = require_text(message.values, "type")
        if kind in ("call-result", "call-error"):
            return "[3]"
        if kind != "call":
            raise Refused("'type' is neither call, call-result nor call-error", shown(kind))
        for field in ("id", "action"):
            require_text(message.values, field)
        if "request" not in message.values:
            raise Refused("'request' is missing")
        texts = message.texts
        return f"[2,{texts['id']},{texts['action']},{texts['request']}]"


OTHER_FORMS: dict[str, Callable[[], Form]] = {
    "ocpp": OcppForm,
    "citrineos": CitrineForm,
    "citrineos-csv": CitrineCsvForm,
    "maeve": MaeveForm,
}
NAMES = ("json", *OTHER_FORMS, "arrows")


def compile_pattern(text: str) -> re.Pattern[str]:
    """A regular expression with the groups that a log needs. Raises ArgumentTypeError."""
    try:
        pattern = re.compile(text, re.DOTALL)
    except re.error as fault:
        raise argparse.ArgumentTypeError(f"no regular expression: {fault}") from None
    known = {"site", "station", "time", "message", "direction", "protocol"}
    if missing := {"station", "message"} - set(pattern.groupindex):
        raise argparse.ArgumentTypeError(f"no group (?P<{min(missing)}>..)")
    if others := set(pattern.groupindex) - known:
        raise argparse.ArgumentTypeError(f"groups are {', '.join(sorted(known))}: {min(others)}")
    return pattern


def add_fields(parser: argparse.ArgumentParser, fields: tuple[str, ...]) -> None:
    """The options that name the fields of a form `json`, or an expression that finds them."""
    for field in fields:
        parser.add_argument(
            f"--{field}-field",
            dest=field,
            metavar="FIELD",
            default=field,
            help=f"the {field}'s field (default: {field})",
        )
    parser.add_argument(
        "--json-message",
        dest="is_json_message",
        action="store_true",
        help="the message is a JSON array or object in place of a string; its text is cut from the "
        "line as it is, with numbers and blanks",
    )
    parser.add_argument(
        "--protocol-field",
        dest="protocol",
        metavar="FIELD",
        help="a field with the version of OCPP; lines of others than 2.0.1 are left out and "
        "counted",
    )
    parser.add_argument(
        "--direction-field",
        dest="direction",
        metavar="FIELD",
        help="a field that says who sent the message; lines of others than stations are left out "
        "and counted (without it each call counts as a station's)",
    )
    parser.add_argument(
        "--incoming",
        metavar="TEXT",
        help="what that field, the group `direction` or the arrow says where a station sent it "
        "(default: in, or the arrow that points away from a station)",
    )
    parser.add_argument(
        "--regex",
        metavar="PATTERN",
        type=compile_pattern,
        help="an expression with named groups, in place of a form",
    )


def add_form(parser: argparse.ArgumentParser) -> None:
    """The option that names the log's shape."""
    names = ", ".join(NAMES[:-1]) + f" or {NAMES[-1]}"
    parser.add_argument(
        "--form",
        default="json",
        metavar="FORM",
        choices=NAMES,
        help=f"the log's shape: {names} (default: json)",
    )


@dataclass(frozen=True)
class Shape:
    """How the lines of a log are read: by an expression or a form, with the names of a form `json`. `incoming`: what
    says that a station sent a line."""

    form: str
    regex: re.Pattern[str] | None
    fields: Mapping[str, str]
    incoming: str | None
    protocol: str | None
    direction: str | None
    is_json_message: bool

    @property
    def name(self) -> str:
        """Its name in what is reported."""
        return "--regex" if self.regex else self.form

    @property
    def has_site(self) -> bool:
        """Whether the lines of such a log name their site."""
        return "site" in self.regex.groupindex if self.regex else self.form == "json"

    def make_form(self, has_site: bool) -> Form:
        """What reads the lines. `has_site`: the lines of a form `json` name their site."""
        incoming = "in" if self.incoming is None else self.incoming
        if self.regex:
            return RegexForm(self.regex, incoming)
        if self.form == "arrows":
            return ArrowForm(self.incoming)
        if self.form != "json":
            return OTHER_FORMS[self.form]()
        return JsonForm(
            **self.fields,
            protocol=self.protocol,
            direction=self.direction,
            incoming=incoming,
            is_json_message=self.is_json_message,
            has_site=has_site,
        )


def choose_shape(words: argparse.Namespace) -> Shape:
    """The shape that the words ask for."""
    named = {field: getattr(words, field) for field in FIELDS if field in words}
    return pick_options(Shape, words, fields=named)
