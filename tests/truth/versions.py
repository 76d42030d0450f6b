"""Cases of other versions of OCPP."""

from tests.truth.case import Case

NAMED = "report {dir}/log --out {dir}/out --protocol-field version"
SOUND = {"A/T1": 700.0}


def log(version: str, station: str = "A", end: str = "E T1 2 10:30") -> str:
    """A log of a session of this version."""
    more = f"station={station} version={version}"
    return f"S T1 0 10:00 {more} 1000\nU T1 1 10:15 {more} 1300\n{end} {more} 1700\n"


PLANNED = '"costDetails":{"totalUsage":{"energy":0.7},"totalCost":{"currency":"EUR","typeOfCost":"NormalCost"}}'
CASES = [
    Case(
        "a station that speaks OCPP 2.1",
        14,
        "a new vendor",
        "",
        SOUND,
        log=log("ocpp2.1"),
        setup=(NAMED,),
    ),
    Case(
        "OCPP 2.1 by other names",
        14,
        "a CSMS writes OCPP 2.1",
        "",
        SOUND,
        log=log("2.1"),
        setup=(NAMED,),
    ),
    Case(
        "a message of OCPP 2.1 with new members",
        14,
        "the end has what it cost",
        "",
        SOUND,
        log="S T1 0 10:00 version=ocpp2.1 1000\nE T1 1 10:30 version=ocpp2.1 1700 more={%s}"
        % PLANNED,
        setup=(NAMED,),
    ),
    Case(
        "stations that speak OCPP 1.6 are named",
        14,
        "an old station stays",
        "",
        SOUND,
        log=log("ocpp2.0.1") + log("ocpp1.6", "OLD"),
        setup=(NAMED,),
        shows=(("take", "^site,station"), ("left-out", "^north,OLD,ocpp1.6,2026-03-01T10:00:01Z")),
        written=(("out/north/index.html", r"Left out, .*: OLD \(ocpp1\.6\)\."),),
    ),
    Case(
        "frames of OCPP 2.1 without an answer are no refusals",
        14,
        "a stream of values and an error to an answer",
        "S T1 0 10:00 1000\nE T1 1 10:30 1700",
        SOUND,
        raw=(
            '[5,"m","GenericError","",{}]',
            '[6,"m","NotifyPeriodicEventStream",{"id":1,"data":[]}]',
        ),
    ),
    Case(
        "such frames in a log",
        14,
        "the same by a log",
        "",
        SOUND,
        log=log("ocpp2.1"),
        files={
            "more": '{"site":"north","station":"A","time":"2026-03-01T10:20:00Z","message":'
            '"[6,\\"m\\",\\"NotifyPeriodicEventStream\\",{}]"}\n'
        },
        setup=("report {dir}/log {dir}/more --out {dir}/out --protocol-field version",),
    ),
    Case(
        "times of receipt are there without an option",
        14,
        "a clock an hour ahead is seen by the times of the log",
        "",
        SOUND,
        found={"A/T1": {"clock far from receipt": ""}},
        log="S T1 0 11:00 received=10:00 1000\nE T1 1 11:30 received=10:30 1700",
        setup=("report {dir}/log --out {dir}/out",),
    ),
    Case(
        "a script has the times of receipt without an option",
        14,
        "the same by a script",
        "",
        SOUND,
        log=log("ocpp2.0.1"),
        setup=(NAMED,),
        files={"words": ""},
        shows=(("export --station A", "^# received 2026-03-01T10:00:01Z"),),
    ),
]
