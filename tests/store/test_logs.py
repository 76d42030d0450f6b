"""Forms of logs, and how they become scripts."""

import argparse
import io
import json
import re
from collections import Counter
from pathlib import Path
from typing import Any

import pytest

from ocpp_board.commands.log_to_script import Conversion, convert, share_stations
from ocpp_board.errors import UsageError
from ocpp_board.messages.texts import Refused
from ocpp_board.progress import Progress
from ocpp_board.sources.files import read_lines
from ocpp_board.sources.forms import (
    ArrowForm,
    CitrineCsvForm,
    CitrineForm,
    Entry,
    JsonForm,
    MaeveForm,
    OcppForm,
    RegexForm,
    compile_pattern,
)
from ocpp_board.sources.log import read_moment
from ocpp_board.sources.script import write_moment
from ocpp_board.sources.stations import read_pairs
from ocpp_board.statuses import Status
from tests.store.converting import read_words

HEARTBEAT = '[2,"1","Heartbeat",{}]'


def row(**fields: Any) -> str:
    return json.dumps(
        {"site": "north", "station": "A", "time": "2026-03-01T08:00:00Z", "message": HEARTBEAT}
        | fields
    )


def test_json_fields_by_name() -> None:
    form = JsonForm(site="s", station="c", time="t", message="m", direction="d", incoming="up")
    text = '{"s":"north","c":"A","t":"x","m":"[]","d":"down"}'
    assert form.read(text) == Entry("north", "A", "x", "[]", False)
    assert form._replace(has_site=False).read(text) == Entry(None, "A", "x", "[]", False)


def test_dotted_names_lead_into_objects() -> None:
    form = JsonForm(station="from.id", time="meta.at", message="body.frame", has_site=False)
    text = '{"from":{"id":"A"},"meta":{"at":1772352000.5},"body":{"frame":"[]"}}'
    assert form.read(text) == Entry(None, "A", "1772352000.500", "[]")
    # A field that has this very name comes first.
    assert form.read('{"from.id":"B",' + text[1:]) == Entry(None, "B", "1772352000.500", "[]")
    with pytest.raises(Refused, match=r"'body.frame' is missing \(--message-field names another"):
        form.read('{"from":{"id":"A"},"body":[]}')
    cut = form._replace(is_json_message=True).read(
        '{"from":{"id":"A"},"body":{ "frame" : [2,  1.50] }}'
    )
    assert cut == Entry(None, "A", None, "[2,  1.50]")


def test_a_json_message_is_cut_out() -> None:
    form = JsonForm(is_json_message=True, has_site=False)
    entry = form.read('{"station":"A","time":"x","message":[2,  1.0]}')
    assert entry and entry.message == "[2,  1.0]"
    with pytest.raises(Refused, match="'message' is no array or object"):
        form.read('{"station":"A","time":"x","message":"[]"}')


@pytest.mark.parametrize(
    ("text", "entry"),
    [
        (f"INFO:ocpp:A: receive message {HEARTBEAT}\n", Entry(None, "A", None, HEARTBEAT)),
        (
            f"2026-03-01 08:00:00,123 INFO ocpp A: receive message {HEARTBEAT}",
            Entry(None, "A", "2026-03-01 08:00:00,123", HEARTBEAT),
        ),
        ('INFO:ocpp:A: send [3,"1",{}]\n', Entry(None, "A", None, '[3,"1",{}]', False)),
        ("INFO:other: started\n", None),
    ],
)
def test_lines_of_the_package_ocpp(text: str, entry: Entry | None) -> None:
    assert OcppForm().read(text) == entry


def test_rows_of_citrineos() -> None:
    text = (
        '{"stationId":"A","origin":"cs","timestamp":"t","message":[2, "1"],"protocol":"ocpp2.0.1"}'
    )
    assert CitrineForm().read(text) == Entry(None, "A", "t", '[2, "1"]', True)
    old = CitrineForm().read(text.replace("ocpp2.0.1", "ocpp1.6"))
    assert old and old.version == "ocpp1.6" and not old.is_stations
    with pytest.raises(Refused, match="neither cs nor csms"):
        CitrineForm().read(text.replace('"cs"', '"x"'))


def test_rows_of_citrineos_as_csv() -> None:
    form = CitrineCsvForm()
    for _ in range(2):
        assert form.read("timestamp,stationId,origin,message\n") is None
    assert form.read('t,A,csms,"[2,""1""]"\n') == Entry(None, "A", "t", '[2,"1"]', False)
    with pytest.raises(Refused, match="more or fewer cells"):
        form.read("t,A\n")
    with pytest.raises(UsageError, match="names no column message, timestamp"):
        CitrineCsvForm().read("stationId,origin\n")


def test_messages_of_maeve() -> None:
    text = 'x/cs/in/ocpp2.0.1/A {"type":"call","action":"Heartbeat","id":"1","request":{ }}'
    assert MaeveForm().read(text) == Entry(None, "A", None, '[2,"1","Heartbeat",{ }]', True)
    answer = 'cs/out/ocpp2.0.1/A {"type":"call-result"}'
    assert MaeveForm().read(answer) == Entry(None, "A", None, "[3]", False)
    old = MaeveForm().read('cs/in/ocpp1.6/A {"type":"call"}')
    assert old and old.version == "ocpp1.6" and old.station == "A"
    assert MaeveForm().read("manager/status up") is None
    with pytest.raises(Refused, match="'request' is missing"):
        MaeveForm().read(text.replace("request", "response"))


@pytest.mark.parametrize(
    ("text", "entry"),
    [
        (f"CS -> CSMS: {HEARTBEAT}", None),
        (f"A -> CSMS: {HEARTBEAT}\n", Entry(None, "A", None, HEARTBEAT)),
        (f"A->CSMS:{HEARTBEAT}", Entry(None, "A", None, HEARTBEAT)),
        (f"A-1 --> {HEARTBEAT}", Entry(None, "A-1", None, HEARTBEAT)),
        ('CSMS => A [3,"1",{}]', Entry(None, "A", None, '[3,"1",{}]', False)),
        (f"CSMS <- A {HEARTBEAT}", Entry(None, "A", None, HEARTBEAT)),
        (f"1772352000 <- A {HEARTBEAT}", Entry(None, "A", "1772352000", HEARTBEAT)),
        (
            f"2026-03-01 08:00:00,5 [x] A \N{RIGHTWARDS ARROW} {HEARTBEAT}",
            Entry(None, "A", "2026-03-01 08:00:00,5", HEARTBEAT),
        ),
        (
            f"2026-03-01T08:00:00Z A << {HEARTBEAT}",
            Entry(None, "A", "2026-03-01T08:00:00Z", HEARTBEAT, False),
        ),
        ("A -> B: started", None),
        (f"A -> B {HEARTBEAT}", None),
    ],
)
def test_lines_with_arrows(text: str, entry: Entry | None) -> None:
    assert ArrowForm().read(text) == entry


def test_an_arrow_may_be_named() -> None:
    assert ArrowForm("<<").read(f"A << {HEARTBEAT}") == Entry(None, "A", None, HEARTBEAT)
    assert ArrowForm("<<").read('A >> [3,"1",{}]') == Entry(None, "A", None, '[3,"1",{}]', False)


def test_an_expression_names_groups() -> None:
    text = r"^(?P<time>\S+) (?P<site>\w+)/(?P<station>\w+) (?P<direction>in|out) (?P<message>.*)"
    form = RegexForm(compile_pattern(text), "in")
    assert form.read("t north/A in []\r\n") == Entry("north", "A", "t", "[]")
    assert form.read("t north/A out []") == Entry("north", "A", "t", "[]", False)
    assert form.read("started") is None
    old = RegexForm(compile_pattern("(?P<protocol>[^ ]+) (?P<station>.) (?P<message>.*)"), "in")
    assert old.read("ocpp1.6 A []") == Entry(None, "A", None, "", False, "ocpp1.6")
    assert old.read("OCPP2.0.1 A []") == Entry(None, "A", None, "[]")


@pytest.mark.parametrize(
    ("text", "why"),
    [
        ("(", "no regular expression"),
        ("(?P<station>.)", "no group .*message"),
        ("(?P<station>.)(?P<message>.)(?P<to>.)", "groups are .*: to"),
    ],
)
def test_expressions_that_are_refused(text: str, why: str) -> None:
    with pytest.raises(argparse.ArgumentTypeError, match=why):
        compile_pattern(text)


@pytest.mark.parametrize(
    ("text", "is_utc", "moment"),
    [
        ("2026-03-01T08:00:00Z", False, "2026-03-01T08:00:00Z"),
        ("2026-03-01T09:00:00.999+01:00", False, "2026-03-01T08:00:00Z"),
        ("2026-03-01 08:00:00", True, "2026-03-01T08:00:00Z"),
        ("2024-02-29T23:59:59.9999999Z", False, "2024-02-29T23:59:59Z"),
        ("2099-12-31T23:59:59Z", False, "2099-12-31T23:59:59Z"),
        ("1999-12-31T23:00:00-01:00", False, "2000-01-01T00:00:00Z"),
        ("1772352000", False, "2026-03-01T08:00:00Z"),
        ("1772352000.999", False, "2026-03-01T08:00:00Z"),
        ("1772352000123", False, "2026-03-01T08:00:00Z"),
        ("1772352000123.000", False, "2026-03-01T08:00:00Z"),
        ("1772352000123456", False, "2026-03-01T08:00:00Z"),
        ("1772352000123456789", False, "2026-03-01T08:00:00Z"),
    ],
)
def test_moments(text: str, is_utc: bool, moment: str) -> None:
    assert write_moment(read_moment(text, is_utc)) == moment


@pytest.mark.parametrize(
    ("text", "why"),
    [
        ("2026-03-01T08:00:00", "a time has no offset"),
        ("2100-01-01T00:00:00Z", "a time is not from 2000 to 2099"),
        ("1999-12-31T23:59:59Z", "a time is not from 2000 to 2099"),
        ("0001-01-01T00:00:00+01:00", "a time is none"),
        ("yesterday", "a time is none"),
        ("2026-02-29T08:00:00Z", "a time is none"),
        ("2026-02-28T08:00:60Z", "a time is none"),
        ("2026-02-28T24:00:00Z", "a time is none"),
        ("17723520", "a time is none"),
        ("4102444800", "a time is not from 2000 to 2099"),
    ],
)
def test_times_that_are_refused(text: str, why: str) -> None:
    with pytest.raises(Refused, match=why):
        read_moment(text, False)


def test_pairs_of_names(tmp_path: Path) -> None:
    (tmp_path / "pairs").write_text("# sites\n\nnorth  A\nsouth\tB\n")
    assert read_pairs(str(tmp_path / "pairs")) == [("north", "A"), ("south", "B")]
    (tmp_path / "pairs").write_text("north A x\n")
    with pytest.raises(UsageError, match="line 1: not two names"):
        read_pairs(str(tmp_path / "pairs"))
    (tmp_path / "pairs").write_text("north CS 01\n")
    with pytest.raises(UsageError, match="a name has no blank; names have 1 to 48"):
        read_pairs(str(tmp_path / "pairs"))
    (tmp_path / "pairs").write_text("north CS/01\n")
    with pytest.raises(
        UsageError, match="the name 'CS/01' has '/', which no name has; names have 1"
    ):
        read_pairs(str(tmp_path / "pairs"))


def test_lines_of_a_log() -> None:
    log = io.BytesIO(b"\xef\xbb\xbfa\n" + b"x" * 4_194_305 + b"\nb")
    assert list(read_lines(log)) == [(1, b"a\n"), (2, None), (3, b"b")]


def script_of(log: list[str], folder: Path, *words: str) -> tuple[str, dict[str, int]]:
    """The script of a log, and the counts."""
    (folder / "log").write_text("".join(line + "\n" for line in log))
    out = io.BytesIO()
    with open(folder / "log", "rb") as file:
        conversion = Conversion(read_words(["--no-received", *words]), out)
        conversion.run(file, Progress(file))
        conversion.script.write()
    return out.getvalue().decode(), conversion.counts


def new(site: str) -> str:
    """What is declared of a site where no word says otherwise."""
    return f"order {site} moment\nsettle {site} even\n"


def test_stations_are_declared_before_messages(tmp_path: Path) -> None:
    log = [row(), row(station="B", site="south"), row(message='[3,"1",{}]'), "", "no JSON"]
    script, counts = script_of(log, tmp_path, "--period", "south=300", "--limits", *"1234")
    assert script == (
        f"limits 1 2 3 4\nstation north A\nstation south B\n{new('north')}period south 300\n{new('south')}"
        f"now 2026-03-01T08:00:00Z\nmsg A {HEARTBEAT}\nmsg B {HEARTBEAT}\n"
        '# untaken {"advice":"look at the line of the log; the options of log-to-script name its '
        'form","what":"not JSON: Expecting value at character 1"}\n'
        "board north\nboard south\n"
    )
    assert counts == {
        "lines": 5,
        "messages": 2,
        "answers": 1,
        "sent": 0,
        "old": 0,
        "other": 0,
        "blank": 1,
        "refused": 1,
    }


def test_a_plan_has_at_most_so_many_stations(tmp_path: Path) -> None:
    script, counts = script_of([row(station=f"S{n}") for n in range(66)], tmp_path, "--no-boards")
    assert script.count("station north ") == 64 and script.count("# untaken ") == 2
    assert (counts["messages"], counts["refused"]) == (64, 2)


def test_a_plan_has_at_most_so_many_sites_and_readings(tmp_path: Path) -> None:
    log = [row(station=f"S{n}", site=f"site-{n}") for n in range(17)]
    assert script_of(log, tmp_path)[1]["refused"] == 1
    log = [row(station=f"S{n}") for n in range(17)]
    _, counts = script_of(log, tmp_path, "--limits", "1", "1", "65536", "1")
    assert (counts["messages"], counts["refused"]) == (16, 1)


def test_a_station_is_on_one_site(tmp_path: Path) -> None:
    _, counts = script_of([row(), row(site="south")], tmp_path)
    assert (counts["messages"], counts["refused"]) == (1, 1)


def test_a_site_map_names_sites(tmp_path: Path) -> None:
    (tmp_path / "map").write_text("A west\n")
    words = ("--site-map", str(tmp_path / "map"))
    script, counts = script_of([row(), row(station="B")], tmp_path, *words)
    assert script.startswith("station west A\n") and counts["refused"] == 1
    script, _ = script_of([row(), row(station="B")], tmp_path, *words, "--site", "east")
    assert script.startswith("station west A\nstation east B\n")


def test_what_is_left_out_changes_no_status(tmp_path: Path) -> None:
    log = [row(), row(message='[2,"1","StartTransaction",{}]'), row(proto="ocpp1.6")]
    words = ("--no-boards", "--protocol-field", "proto")
    script, counts = script_of(log, tmp_path, *words)
    assert script.count("msg ") == 1
    assert (counts["messages"], counts["old"], counts["refused"]) == (1, 2, 0)


def test_no_message_is_left_out_for_its_time(tmp_path: Path) -> None:
    event = '[2,"1","TransactionEvent",{}]'
    times: list[object] = ["yesterday", None, 7, "1999-01-01T00:00:00Z", "2026-03-01T08:00:00"]
    log = [row(time=time) for time in times] + [row(time="never", message=event)]
    script, counts = script_of(log, tmp_path, "--no-boards")
    head = f"station north A\n{new('north')}"
    assert script == head + 5 * f"msg A {HEARTBEAT}\n" + f"msg A {event}\n"
    assert (counts["messages"], counts["refused"]) == (6, 0)


def test_times_of_receipt_are_in_comments(tmp_path: Path) -> None:
    log = [row(), row(message='[2,"1","TransactionEvent",{}]', time="x"), row()]
    script, _ = script_of(log, tmp_path, "--no-boards", "--received")
    comment = "# received 2026-03-01T08:00:00Z\n"
    assert script == (
        f"station north A\n{new('north')}now 2026-03-01T08:00:00Z\n{comment}msg A {HEARTBEAT}\n"
        f'msg A [2,"1","TransactionEvent",{{}}]\n{comment}msg A {HEARTBEAT}\n'
    )


def test_shares_keep_sites_whole_where_they_fit() -> None:
    sites = {"a": 40, "b": 30, "c": 20, "d": 70}
    site_of = {f"{site}{n}": site for site, count in sites.items() for n in range(count)}
    shares = [Counter(share.values()) for share in share_stations(site_of, 64)]
    assert shares == [{"a": 40, "c": 20}, {"b": 30, "d": 6}, {"d": 64}]
    # Of a 16, 16, 8 with 4 of c; of b 16, 14; of c 16; of d 64 and 6.
    few = [len(share) for share in share_stations(site_of, 16)]
    assert few == [16, 16, 12, 16, 14, 16, 16, 16, 16, 16, 6]
    many = {f"S{n}": f"site{n}" for n in range(20)}
    assert [len(share) for share in share_stations(many, 64)] == [16, 4]


def test_sites_have_the_orders_that_are_asked_for(tmp_path: Path) -> None:
    log = [row(), row(station="B", site="south"), row(station="C", site="a=b")]
    stations = "station north A\nstation south B\nstation a=b C\n"

    def declared(*words: str) -> str:
        return script_of(log, tmp_path, *words)[0].partition("now ")[0].removeprefix(stations)

    assert declared() == "".join(map(new, ("north", "south", "a=b")))
    later = ("--settle", "later", "--order", "sequence")
    every = "".join(
        f"order {site} sequence\nsettle {site} later\n" for site in ("north", "south", "a=b")
    )
    assert declared(*later) == every
    changed = every.replace("order south sequence", "order south moment")
    assert declared(*later, "--order", "south=moment") == changed
    first = "".join(map(new, ("north", "south", "a=b"))).replace("a=b moment", "a=b sequence")
    assert (
        declared("--order", "a=b=sequence", "--period", "north=300") == f"period north 300\n{first}"
    )


@pytest.mark.parametrize(
    ("words", "why"),
    [
        (
            ("--order", "nroth=moment"),
            "--order names the site 'nroth', which the log does not have",
        ),
        (("--period", "south=300"), "--period names the site 'south', which the log does not have"),
    ],
)
def test_a_site_that_no_line_has_is_a_fault_that_lists_the_sites(
    words: tuple[str, ...], why: str, tmp_path: Path, capfdbinary: pytest.CaptureFixture[bytes]
) -> None:
    (tmp_path / "log").write_text(row() + "\n" + row(station="B", site="east") + "\n")
    with pytest.raises(UsageError, match=re.escape(why) + "; its sites: north, east"):
        convert(read_words([*words, str(tmp_path / "log")]))
    with pytest.raises(UsageError, match=re.escape(why)):
        split = ("--split", str(tmp_path / "scripts"))
        convert(read_words([*words, *split, str(tmp_path / "log")]))
    assert capfdbinary.readouterr().out == b"" and not list((tmp_path / "scripts").iterdir())
    # Sites that a file of stations or a map has are known, whatever the log has.
    (tmp_path / "stations").write_text("north A\neast B\n")
    (tmp_path / "map").write_text(f"A north\nB {words[1].partition('=')[0]}\n")
    stations = ("--stations", str(tmp_path / "stations"))
    with pytest.raises(UsageError, match="stations does not have; its sites: north, east"):
        script_of([row()], tmp_path, *words, *stations)
    assert (
        "station north A"
        in script_of([row()], tmp_path, *words, "--site-map", str(tmp_path / "map"))[0]
    )


def test_a_log_of_many_stations_is_split(tmp_path: Path) -> None:
    log = [row(station=f"N{n}") for n in range(50)]
    log += [row(station=f"S{n}", site="south", time="2026-03-01T09:00:00Z") for n in range(50)]
    log += [row(time="2026-03-01T09:00:00Z", station="N0")]
    (tmp_path / "log").write_text("".join(line + "\n" for line in log))
    folder = tmp_path / "scripts"
    words = [str(tmp_path / "log"), "--split", str(folder), "--period", "300", "--no-received"]
    assert convert(read_words(words)) == Status.DONE
    assert sorted(path.name for path in folder.iterdir()) == ["1.script", "2.script"]
    north, south = ((folder / f"{n}.script").read_text() for n in (1, 2))
    stations = "".join(f"station north N{n}\n" for n in range(50))
    messages = "".join(f"msg N{n} {HEARTBEAT}\n" for n in range(50))
    assert north == (
        f"{stations}period north 300\n{new('north')}now 2026-03-01T08:00:00Z\n{messages}"
        f"now 2026-03-01T09:00:00Z\nmsg N0 {HEARTBEAT}\nboard north\n"
    )
    assert south.count("now ") == 1 and south.endswith("board south\n")
    with pytest.raises(UsageError, match="is not empty"):
        convert(read_words(words))


@pytest.mark.parametrize(
    "words",
    [
        ("--period", "600"),
        ("--period", "a/b=300"),
        ("--order", "time"),
        ("--order", "north=Moment"),
        ("--order", "a/b=moment"),
        ("--limits", "1", "1", "65537", "1"),
        ("--limits", "0", "1", "1", "1"),
        ("--site", "a b"),
        ("--form", "ocpp"),
        ("--form", "xml"),
        ("--form", "arrows"),
        ("--regex", "(?P<station>.)(?P<message>.)"),
        ("--regex", "("),
        ("--split", "x", "--stations", "y"),
    ],
)
def test_wrong_words_end_with_2(words: tuple[str, ...]) -> None:
    with pytest.raises(SystemExit) as ended:
        read_words(words)
    assert ended.value.code == 2
