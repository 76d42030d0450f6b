"""Judges what the tools say of a case: right, or what is wrong with it."""

import contextlib
import io
import re
import shlex
from dataclasses import dataclass, field, replace
from enum import Enum
from pathlib import Path
from typing import Any

from ocpp_board.cli import main
from ocpp_board.ledger.engine import change_site, settle
from ocpp_board.ledger.findings import Effect, Kind
from ocpp_board.records import Limits, Message, Rules
from ocpp_board.store.database import Database, open_store
from ocpp_board.store.plan import Author, write_station
from tests.truth.case import Case, Sent, read_message, read_messages, write_log

SITE = "north"
AUTHOR = Author("tests", "a case")
EFFECTS = {kind.label: kind.effect for kind in Kind}
MEANINGS = {kind.label: kind.meaning for kind in Kind}
SESSIONS = """
select s.*, a.import_sum from session s
join adjusted_session a on a.station = s.station and a.transaction_id = s.transaction_id
"""
PERIODS = """
select starts, sum(up - down) as imported, max(estimated) as estimated from evse_period
where station = 'A' group by starts order by starts
"""


class Verdict(Enum):
    """What can be said of a case, the worst first."""

    SILENT = "wrong and silent"
    ADVICE = "wrong or impossible advice"
    NO_WAY = "a refused message without a way"
    ALARM = "a right number called wrong"
    RIGHT = "right"


@dataclass
class Seen:
    """What a store says: of sessions their energy in Wh, whether that is said to be doubtful, and their findings with
    details; of periods their energy and whether it is estimated; how many texts wait for a decision, and what is
    advised."""

    energy: dict[str, float] = field(default_factory=dict)
    measured: dict[str, str] = field(default_factory=dict)
    complete: dict[str, bool] = field(default_factory=dict)
    found: dict[str, dict[str, str]] = field(default_factory=dict)
    held: set[str] = field(default_factory=set)
    periods: dict[str, tuple[float, bool]] = field(default_factory=dict)
    waiting: int = 0
    # Sessions that refused texts name which wait for a decision.
    lacking: set[str] = field(default_factory=set)
    advice: str = ""

    def is_said(self, name: str) -> bool:
        """Whether something says that a session's energy may be another one."""
        effects = {EFFECTS.get(kind) for kind in self.found.get(name, ())}
        return bool(
            effects & {Effect.WRONG, Effect.LACKS}
            or name in self.held
            or self.measured.get(name, "yes") != "yes"
            or not self.complete.get(name, False)
            or name in self.lacking
        )

    def list_alarms(self, name: str) -> set[str]:
        """The findings by which a session's energy is wrong or lacking."""
        grave = (Effect.WRONG, Effect.LACKS)
        return {kind for kind in self.found.get(name, ()) if EFFECTS.get(kind) in grave}


@dataclass
class Judged:
    """A verdict, why, and what was there before and after the remedy."""

    verdict: Verdict
    why: list[str]
    before: Seen
    after: Seen


def plan(store: Database, case: Case, sent: list[Sent]) -> None:
    """Plans the site and the stations of a case."""
    known = {name: value for name, value in case.rules.items() if hasattr(Rules(), name)}
    if "limits" in known:
        known["limits"] = replace(Limits(), **known["limits"])
    rules = replace(Rules(order=case.order, settle=case.settle), **known)
    change_site(store, SITE, rules, AUTHOR)
    names = {one.station for one in sent} | {name.partition("/")[0] for name in case.truth}
    with store.transaction():
        for station in sorted(names - set(case.unplanned)):
            write_station(store, station, SITE, AUTHOR)
        quota = {name: case.rules.get(name, 0) for name in ("most_open", "most_bytes")}
        store.execute("update site set most_open = :most_open, most_bytes = :most_bytes", **quota)
        store.execute("update site set mends = :mends", mends=case.rules.get("mends", ""))


def find_name(station: str, transaction: str, case: Case) -> str:
    """The name of a session as the case has it."""
    name = f"{station}/{transaction}" if transaction else station
    known = {one.lower(): one for one in (*case.truth, *case.found)}
    return known.get(name.lower(), name)


def look(store: Database, case: Case) -> Seen:
    """What a store says."""
    seen, advice = Seen(), list[str]()
    for row in store.fetch(SESSIONS):
        if not row.events:
            continue
        name = find_name(row.station, row.transaction_id, case)
        seen.energy[name] = row.import_sum / 1000
        seen.complete[name] = bool(row.complete)
        seen.measured[name] = getattr(row, "energy_measured", "yes")
    for row in store.fetch("select station, transaction_id, kind, detail from all_finding"):
        name = find_name(row.station, row.transaction_id, case)
        seen.found.setdefault(name, {})[row.kind] = row.detail
        advice += [MEANINGS.get(row.kind, ""), row.detail]
    for row in store.fetch("select station, transaction_id from hold where released_at is null"):
        seen.held.add(find_name(row.station, row.transaction_id, case))
    for row in store.fetch(PERIODS):
        seen.periods[f"{row.starts:%dT%H:%M}"] = float(row.imported) / 1000, bool(row.estimated)
    for row in store.fetch("select * from refusal"):
        if not getattr(row, "decision", ""):
            seen.waiting += 1
            seen.lacking.add(find_name(row.station, row.transaction_id, case))
            advice.append(row.advice)
    advice += [row.advice for row in store.fetch("select advice from refused")]
    seen.advice = " ".join(advice)
    return seen


def run(store_name: str, line: str) -> tuple[int, str]:
    """Runs a command of `ocpp-board`, and gives its status and what it printed."""
    words = shlex.split(line)
    said = io.TextIOWrapper(io.BytesIO(), "utf-8", write_through=True)
    words[1:1] = ["--store", store_name]
    with contextlib.redirect_stdout(said), contextlib.redirect_stderr(said):
        try:
            status = main(words)
        except SystemExit as ended:
            status = int(ended.code or 0)
    said.seek(0)
    return int(status), said.read()


def run_proposed(store_name: str, line: str) -> tuple[int, str]:
    """Runs the commands that a command proposes."""
    status, said = run(store_name, line)
    proposed = [one.strip() for one in said.splitlines() if one.startswith("  ocpp-board ")]
    for one in proposed:
        done, more = run(store_name, re.sub(r"^ocpp-board | --store \S+", "", one))
        status, said = max(status, done), said + more
    return (status, said) if proposed else (-1, f"nothing is proposed: {said}")


def compare_sessions(case: Case, seen: Seen) -> list[tuple[Verdict, str]]:
    """What is wrong with the sessions before any remedy."""
    found = list[tuple[Verdict, str]]()
    for name, wh in case.truth.items():
        had = seen.energy.get(name)
        if had is None:
            if not seen.waiting and not case.remedy:
                found.append((Verdict.SILENT, f"{name} is not there"))
        elif abs(had - wh) > 0.001:
            if not seen.is_said(name):
                found.append(
                    (Verdict.SILENT, f"{name} has {had} Wh and not {wh}, and nothing says so")
                )
            elif not case.remedy:
                found.append((Verdict.ADVICE, f"{name} has {had} Wh and not {wh}, and no remedy"))
        elif alarms := seen.list_alarms(name) - {*case.fine, *case.found.get(name, ())}:
            found.append((Verdict.ALARM, f"{name} is right, and has {', '.join(sorted(alarms))}"))
    for name, had in seen.energy.items():
        if name not in case.truth and had and not seen.is_said(name):
            found.append((Verdict.SILENT, f"{name} is no session, and has {had} Wh"))
    for name in seen.found:
        known = {*case.fine, *case.found.get(name, ())}
        if "/" not in name and (alarms := seen.list_alarms(name) - known):
            found.append((Verdict.ALARM, f"station {name} has {', '.join(sorted(alarms))}"))
    return found


def compare_periods(case: Case, seen: Seen) -> list[tuple[Verdict, str]]:
    """What is wrong with the periods."""
    found = list[tuple[Verdict, str]]()
    if not case.periods:
        return found
    wanted = {read_period(name): wh for name, wh in case.periods.items()}
    for name in sorted({*wanted, *seen.periods}):
        had, is_estimated = seen.periods.get(name, (0.0, False))
        if abs(had - wanted.get(name, 0.0)) > 0.5 and not is_estimated:
            why = f"period {name} has {had} Wh and not {wanted.get(name, 0.0)}, as measured"
            found.append((Verdict.SILENT, why))
    return found


def read_period(name: str) -> str:
    """The beginning of a period with its day."""
    day, _, time = name.rpartition("T")
    return f"{int(day or 1):02}T{time}"


def write_files(case: Case, folder: Path) -> None:
    """Writes the files of a case."""
    (folder / "log").write_text(write_log(case.log), "utf-8")
    for name, text in case.files.items():
        is_line = text[:1] in ("S", "U", "E", "M")
        (folder / name).write_text(read_message(text).text if is_line else text, "utf-8")


def judge(case: Case, store_name: str, folder: Path) -> Judged:
    """Judges a case in an empty store, with its files in this folder."""
    sent = read_messages(case.sent)
    sent += [Sent("A", text, None) for text in case.raw]
    write_files(case, folder)
    wrong = list[tuple[Verdict, str]]()
    with open_store(store_name) as store:
        plan(store, case, sent)
        for one in sent:
            settle(store, [Message(one.station, one.text, one.received, "a case", SITE)])
    for line in case.setup:
        run(store_name, line.format(dir=folder))
    with open_store(store_name) as store:
        before = look(store, case)
    wrong += compare_sessions(case, before) + compare_periods(case, before)
    for line, wanted in zip(case.remedy, case.status or [0] * len(case.remedy)):
        own = line.removeprefix("sh: ").format(dir=folder)
        status, said = (run if own == line.format(dir=folder) else run_proposed)(store_name, own)
        if status != wanted:
            wrong.append((Verdict.ADVICE, f"`{line}` ended with {status}: {said.strip()}"))
    with open_store(store_name) as store:
        after = look(store, case)
    wrong += compare_after(case, before, after)
    for line, shown in case.shows:
        _, said = run(store_name, line.format(dir=folder))
        if not re.search(shown, said, re.MULTILINE):
            wrong.append((Verdict.SILENT, f"`{line}` does not show {shown!r}:\n{said}"))
    for name, shown in case.written:
        text = (folder / name).read_text("utf-8") if (folder / name).exists() else ""
        if not re.search(shown, text, re.MULTILINE):
            wrong.append((Verdict.SILENT, f"{name} does not have {shown!r}:\n{text[:3_000]}"))
    order = list(Verdict)
    wrong.sort(key=lambda one: order.index(one[0]))
    verdict = wrong[0][0] if wrong else Verdict.RIGHT
    return Judged(verdict, [why for _, why in wrong], before, after)


def compare_after(case: Case, before: Seen, after: Seen) -> list[tuple[Verdict, str]]:
    """What is wrong after the remedy."""
    found = list[tuple[Verdict, str]]()
    if before.waiting != case.refused:
        found.append((Verdict.SILENT, f"{before.waiting} texts wait, and not {case.refused}"))
    if after.waiting:
        found.append((Verdict.NO_WAY, f"{after.waiting} texts wait still"))
    if not case.remedy:
        return found
    wanted: dict[str, Any] = case.truth if case.after is None else case.after
    for name, wh in wanted.items():
        had = after.energy.get(name)
        if had is None or abs(had - wh) > 0.001:
            kind = Verdict.NO_WAY if before.waiting else Verdict.ADVICE
            found.append((kind, f"after the remedy {name} has {had} Wh and not {wh}"))
    words = {name_command(line) for line in case.remedy}
    if case.is_advised and not any(word in before.advice for word in words):
        found.append((Verdict.ADVICE, f"nothing advises {' or '.join(sorted(words))}"))
    return found


def name_command(line: str) -> str:
    """The command of a line, as advice names it."""
    words = line.removeprefix("sh: ").split()
    return " ".join(words[:2]) if words[0] in ("adjust", "operate", "plan") else words[0]
