"""The one writer of lines and rows: it settles texts and operators' lines in a store, and answers them.

What the texts ask for is the program's word. Then, in one database transaction: the transactions named are held in the
order of their keys, their lines are read, the program answers old lines and new ones, and what changed is written. An
answer is given only after the commit. A failure gives none, and the same may come again: a repeat changes nothing.
"""

import re
from collections.abc import Callable, Collection, Iterable, Iterator, Sequence
from contextlib import AbstractContextManager, nullcontext
from dataclasses import dataclass, field
from datetime import datetime, timezone
from functools import lru_cache, partial
from operator import attrgetter
from typing import Any, NamedTuple

from ocpp_board.errors import InputError
from ocpp_board.ledger.answers import Wish
from ocpp_board.ledger.course import Course
from ocpp_board.ledger.mending import mend_messages, note_mends
from ocpp_board.ledger.program import find_program
from ocpp_board.ledger.quotas import (
    FLOODS,
    TOO_MANY_STRAYS,
    Asking,
    find_refused,
    find_strays_above,
    write_reply,
)
from ocpp_board.ledger.refusals import (
    CONFLICT,
    UNKNOWN_STATION,
    UNTAKEN,
    Refusal,
    describe_message,
    describe_stranger,
    describe_untaken,
    digest_text,
    find_names,
    is_left_out,
    keep_text,
    name_cause,
    read_levels,
)
from ocpp_board.ledger.rows import Done, Work, work_out
from ocpp_board.limits import FIRST_MOMENT
from ocpp_board.messages.texts import is_unanswered, one_line
from ocpp_board.messages.times import SECOND
from ocpp_board.records import DELIVER, Answer, Asked, Deed, Line, Message, Rules, Untaken
from ocpp_board.store import lines as store_lines
from ocpp_board.store.database import Database, Row
from ocpp_board.store.lines import Counted, Held, Kept, Key, Warm, Writer, Written
from ocpp_board.store.plan import (
    RULES_COLUMNS,
    Author,
    Planned,
    find_planned,
    own_rules,
    read_rules,
    share_sites,
    write_power,
    write_site,
)
from ocpp_board.store.values import estimate_parts, find_near

# An origin that is a place in a file, such as `csms.log:17`.
PLACE = re.compile(r"(?!.*://).*:[0-9]+")
# The word of an operator who chooses the order of a transaction's readings.
ORDER = "order"
# What became of texts that were refused and taken after all.
TAKEN, MENDED = "taken", "mended"
# Transactions that are computed again at once where rules change.
SESSIONS_AT_ONCE = 2_000
# Moments that have their nanoseconds kept, since many messages come at one.
KEPT_MOMENTS = 1_024
EPOCH = datetime(1970, 1, 1, tzinfo=timezone.utc)


class Decided(NamedTuple):
    """A text that waited for a decision, by its digest, and what became of it."""

    station: str
    digest: str
    decision: str


@dataclass(slots=True)
class Batch:
    """What one call settles. `answers`: by the places of what was asked."""

    asked: Sequence[Asked]
    wishes: dict[int, Wish]
    answers: dict[int, Answer] = field(default_factory=dict)
    # By transaction, the places of what asks for it.
    sessions: dict[Key, list[int]] = field(default_factory=dict)
    refusals: list[tuple[Asked, Refusal, str]] = field(default_factory=list)
    strays: list[tuple[Message, Wish]] = field(default_factory=list)
    # Messages of no transaction, by their places, and those of them that may have readings.
    replied: dict[int, Message] = field(default_factory=dict)
    others: list[Message] = field(default_factory=list)
    # Messages that were mended, each with what it asks for.
    mended: list[tuple[Message, Wish]] = field(default_factory=list)
    # Texts that waited for a decision and were taken after all, and what became of them.
    decided: list[Decided] = field(default_factory=list)


# What will become of transactions: their works, and what is done of them.
Foreseen = dict[Key, tuple[Work, Done]]


def settle(
    store: Database,
    asked: Sequence[Asked],
    *,
    also: Callable[[Database], None] | None = None,
    warm: Warm | None = None,
    guard: AbstractContextManager[Any] | None = None,
    apart: Counted | None = None,
) -> list[Answer]:
    """Answers what is asked, in its order, once all that it changes is committed. Raises StoreError and ProgramError,
    and then nothing has changed. `also`: is called within the database transaction, right before its commit; `warm`:
    what this process stored last; `guard`: is held together with a SQLite file, where several processes settle at once,
    and all that can be is computed before; `apart`: gets what is counted, which the caller writes.
    """
    put = mend_messages(store, asked, warm)
    batch = Batch(put.asked, ask_program(put.asked))
    sort_asked(batch)
    find_strangers(store, batch)
    if batch.sessions or batch.refusals or batch.others or batch.mended or also:
        foreseen = foresee(store, batch) if guard and store.kind == "sqlite" else {}
        with guard or nullcontext(), store.transaction():
            kept = write_batch(store, batch, warm, foreseen, apart)
            if also:
                also(store)
        if warm is not None:
            for key, one in kept.items():
                warm.keep(key, one)
    answers = put.join([batch.answers[place] for place in range(len(batch.asked))])
    note_mends(asked, answers, put)
    return answers


# What is asked -------------------------------------------------------------------------------------------------------


def ask_program(asked: Sequence[Asked]) -> dict[int, Wish]:
    """What each message asks for, by its place."""
    places = [place for place, one in enumerate(asked) if isinstance(one, Message)]
    texts, moments = list[str](), list[int | None]()
    for place in places:
        one = asked[place]
        assert isinstance(one, Message)
        texts.append(one.text)
        moments.append(to_nanoseconds(one.received))
    return dict(zip(places, find_program().ask(texts, moments) if texts else ()))


@lru_cache(KEPT_MOMENTS)
def to_nanoseconds(at: datetime | None) -> int | None:
    """A moment in nanoseconds since 1970."""
    if at is None:
        return None
    since = at - EPOCH
    return ((since.days * 86_400 + since.seconds) * 1_000_000 + since.microseconds) * (
        SECOND // 1_000_000
    )


def sort_asked(batch: Batch) -> None:
    """Answers what needs no transaction, and sorts the rest by transaction."""
    for place, one in enumerate(batch.asked):
        if isinstance(one, Untaken):
            batch.refusals.append((one, describe_untaken(one), one.transaction.lower()))
            batch.answers[place] = Answer("untaken")
        elif isinstance(one, Deed):
            batch.sessions.setdefault((one.station, one.transaction.lower()), []).append(place)
        else:
            sort_message(batch, place, one, batch.wishes[place])
            if one.mends:
                batch.mended.append((one, batch.wishes[place]))


def sort_message(batch: Batch, place: int, one: Message, wish: Wish) -> None:
    """Sorts a message by what it asks for."""
    if one.quota and wish.outcome in ("event", "reply"):
        batch.replied[place] = one
        refuse_message(batch, place, one.quota)
        return
    if wish.outcome == "event":
        batch.sessions.setdefault((one.station, wish.text), []).append(place)
        return
    batch.replied[place] = one
    if wish.outcome == "silent":
        batch.answers[place] = Answer("silent")
        return
    if is_unanswered(one.text):
        batch.answers[place] = Answer("silent")
        return
    cause = wish.text if wish.outcome == "fault" else name_cause(wish.text)
    if not cause:
        batch.answers[place] = Answer("reply", "", wish.text)
        if '"MeterValues"' in one.text:
            batch.others.append(one)
        return
    reply = None if wish.outcome == "fault" else wish.text
    if is_left_out(one.text, cause):
        batch.answers[place] = Answer("reply", cause, reply)
        return
    refusal = describe_message(one.came or one.text, cause, one.received)
    batch.refusals.append((one, refusal, refusal.sent_id.lower()))
    batch.answers[place] = Answer(wish.outcome if reply is None else "refused", cause, reply)


def find_strangers(store: Database, batch: Batch) -> None:
    """Notes messages of no transaction that are of stations that no site has."""
    stations = {one.station for one in batch.replied.values()}
    strangers = stations - store_lines.find_sites(store, sorted(stations)).keys()
    if not strangers:
        return
    batch.refusals = [
        one
        for one in batch.refusals
        if isinstance(one[0], Untaken) or one[0].station not in strangers
    ]
    kept = {id(one) for one in batch.others}
    for place, one in batch.replied.items():
        if one.station in strangers:
            batch.answers[place] = Answer("stray", UNKNOWN_STATION, batch.answers[place].reply)
            if id(one) not in kept:
                batch.refusals.append((one, describe_stranger(one), ""))


# Writing -------------------------------------------------------------------------------------------------------------


def write_batch(
    store: Database,
    batch: Batch,
    warm: Warm | None,
    foreseen: Foreseen,
    apart: Counted | None,
) -> dict[Key, Kept]:
    """Writes what a batch changes, within a database transaction, and answers the rest of it."""
    planned = hold_sites(store, batch, warm)
    sites = planned.sites
    leave_strays(batch, sites)
    refuse_strays(store, batch)
    refuse_by_quotas(store, batch, planned)
    held = store_lines.hold_sessions(
        store, {key: sites[key[0]] for key in batch.sessions if key[0] in sites}, warm
    )
    deeds = find_done(store, batch)
    batch.answers |= deeds
    works = make_works(store, batch, held, deeds, planned)
    writer, kept, unmeasured = Writer(store), dict[Key, Kept](), set[Key]()
    for key, work, done in work_on(works, foreseen):
        take_answers(store, batch, work, done, held[key], deeds)
        if now := write_rows(writer, work, held[key], done):
            kept[key] = now
        if is_unmeasured(done):
            unmeasured.add(key)
    writer.write()
    counted = Counted(list_refusals(store, batch), list_decisions(batch), list_strays(batch))
    if apart is None:
        counted.write(store)
    else:
        apart.add(counted)
    write_mended(store, batch)
    estimate_parts(store, unmeasured | write_levels(store, batch, sites))
    return kept


def is_unmeasured(done: Done) -> bool:
    """Whether a transaction was written that is over and whose readings do not say its energy."""
    session = done.rows.session if done.rows else None
    return session is not None and session.ended is not None and session.energy_measured != "yes"


def make_works(
    store: Database,
    batch: Batch,
    held: dict[Key, Held],
    deeds: dict[int, Answer],
    planned: Planned,
) -> dict[Key, Work]:
    """The works of transactions that are held."""
    # A station that moved leaves the transactions that it began where they are.
    others = {one.site for one in held.values()} - planned.rules.keys()
    rules = planned.rules | find_all_rules(store, others)
    works = dict[Key, Work]()
    for key, one in held.items():
        new = list_new(batch, batch.sessions[key], deeds)
        own = own_rules(rules[one.site], one.own_order, planned.powers.get(key[0]))
        course: Course | None = one.kept.course if one.kept else None
        if course is not None and course.rules != own:
            # All rows were computed again meanwhile.
            course, held[key] = None, one._replace(kept=None)
        conflicts = list_conflicts(key, one)
        works[key] = Work(*key, one.site, own, one.lines, new, conflicts, course=course)
    return works


def find_powers(store: Database, keys: Iterable[Key]) -> dict[str, int]:
    """The powers of those of the stations of transactions that have one of their own."""
    rows = store_lines.find_stations(store, sorted({key[0] for key in keys}))
    return {station: row.most_kw for station, row in rows.items() if row.most_kw}


def foresee(store: Database, batch: Batch) -> Foreseen:
    """What will become of a batch's transactions, if nobody changes them meanwhile."""
    with store.snapshot():
        planned = find_planned(store, sorted({key[0] for key in batch.sessions}))
        sites = planned.sites
        known = {key: sites[key[0]] for key in batch.sessions if key[0] in sites}
        held = store_lines.hold_sessions(store, known)
        works = make_works(store, batch, held, find_done(store, batch), planned)
    return {key: (work, done) for key, work, done in work_on(works)}


def hold_sites(store: Database, batch: Batch, warm: Warm | None) -> Planned:
    """What the plan has of the batch's stations; it does not change up to the end of the database transaction."""
    stations = sorted({key[0] for key in batch.sessions} | {one.station for one in batch.others})
    if store.kind != "postgresql":
        return find_planned(store, stations)
    # Transactions that a station began at another site have that one's rules.
    others = store_lines.find_session_sites(store, list(batch.sessions), warm)
    while True:
        shared = share_sites(store, stations, others)
        planned = find_planned(store, stations)
        if shared.issuperset(planned.sites.values()):
            return planned


def leave_strays(batch: Batch, sites: dict[str, str]) -> None:
    """Sets aside what is of stations that no site has."""
    for key in [key for key in batch.sessions if key[0] not in sites]:
        for place in batch.sessions.pop(key):
            one = batch.asked[place]
            if isinstance(one, Message):
                batch.strays.append((one, batch.wishes[place]))
                batch.answers[place] = Answer("stray", UNKNOWN_STATION, None, key[1])
            else:
                batch.answers[place] = Answer("fault", UNKNOWN_STATION, None, key[1])
    for one in batch.others:
        if one.station not in sites:
            batch.strays.append((one, Wish("reply")))


def refuse_strays(store: Database, batch: Batch) -> None:
    """Answers messages of stations that no site has where as many of them are kept as there may be."""
    texts = [(one.station, digest_stray(one.text)) for one, _ in batch.strays]
    above = find_strays_above(store, texts) if texts else set()
    if not above:
        return
    places = {id(one): place for place, one in enumerate(batch.asked)}
    for one, key in zip([one for one, _ in batch.strays], texts):
        if key in above:
            refuse_message(batch, places[id(one)], TOO_MANY_STRAYS)
    batch.strays = [one for one, key in zip(batch.strays, texts) if key not in above]


def refuse_by_quotas(store: Database, batch: Batch, planned: Planned) -> None:
    """Answers messages that are above a quota of their site, which change nothing."""
    sites, quotas = planned.sites, {site: one for site, one in planned.quotas.items() if any(one)}
    if not quotas:
        return
    asking = [
        Asking(place, one, key)
        for key, places in batch.sessions.items()
        for place in places
        if isinstance(one := batch.asked[place], Message)
    ]
    values = {id(one) for one in batch.others}
    asking += [
        Asking(place, one, None)
        for place, one in enumerate(batch.asked)
        if id(one) in values and isinstance(one, Message) and one.station in sites
    ]
    asking.sort(key=attrgetter("place"))
    for place, name in find_refused(store, asking, sites, quotas).items():
        one = batch.asked[place]
        assert isinstance(one, Message)
        key = (one.station, batch.wishes[place].text)
        if key in batch.sessions:
            batch.sessions[key].remove(place)
            if not batch.sessions[key]:
                del batch.sessions[key]
        else:
            batch.others = [other for other in batch.others if other is not one]
        refuse_message(batch, place, name)


def refuse_message(batch: Batch, place: int, name: str) -> None:
    """Answers a message that is above the quota of this name."""
    one = batch.asked[place]
    assert isinstance(one, Message)
    refusal = describe_message(one.came or one.text, name, one.received)
    batch.refusals.append((one, refusal, refusal.sent_id.lower()))
    batch.answers[place] = Answer("refused", name, write_reply(one.text, name))


def find_all_rules(store: Database, sites: Collection[str]) -> dict[str, Rules]:
    """The rules of sites."""
    if not sites:
        return {}
    asked = f"select site, {RULES_COLUMNS} from site where site"
    if store.kind == "postgresql":
        rows = store.fetch(f"{asked} = any(:sites)", sites=sorted(sites))
    else:
        some = store.fetch_each(f"{asked} = :site", [{"site": site} for site in sorted(sites)])
        rows = [row for one in some for row in one]
    return {row.site: read_rules(row) for row in rows}


def list_conflicts(key: Key, held: Held) -> list[str]:
    """The lines of messages that conflicted with a transaction's events."""
    texts = (row.text for row in held.refusals if row.cause == CONFLICT)
    return [f"{DELIVER}{key[0]} {one_line(text)}" for text in texts]


def name_deed(one: Deed) -> dict[str, Any]:
    """The key of an operator's line."""
    return {
        "station": one.station,
        "transaction": one.transaction.lower(),
        "number": one.number,
        "word": one.word,
        "at": one.received or FIRST_MOMENT,
        "origin": one.origin,
    }


def find_done(store: Database, batch: Batch) -> dict[int, Answer]:
    """The answers to those of the batch's operators' lines that were settled before, by their places."""
    places = [
        place
        for some in batch.sessions.values()
        for place in some
        if isinstance(batch.asked[place], Deed)
    ]
    keys = [name_deed(one) for place in places if isinstance(one := batch.asked[place], Deed)]
    rows = store_lines.find_deeds(store, keys) if keys else []
    return {
        place: Answer(row.outcome, row.name, None, key["transaction"], row.count)
        for place, key, row in zip(places, keys, rows)
        if row is not None
    }


def list_new(batch: Batch, places: Iterable[int], deeds: dict[int, Answer]) -> list[Line]:
    """The lines that are asked of a transaction, but for those of operators that were settled before."""
    return [make_line(batch.asked[place]) for place in places if place not in deeds]


def make_line(one: Asked) -> Line:
    """The line of what is asked."""
    if isinstance(one, Message):
        text = f"{DELIVER}{one.station} {one_line(one.text)}"
        return Line(0, text, one.received, "", "", one.origin)
    assert isinstance(one, Deed)
    text = f"{one.word} {one.station} {one.transaction} {one.number}"
    return Line(0, text, one.received, one.who, one.why, one.origin)


def work_on(
    works: dict[Key, Work], foreseen: Foreseen | None = None
) -> Iterator[tuple[Key, Work, Done]]:
    """What became of each transaction's new lines, and its rows."""
    some = {key: work for key, work in works.items() if work.new or work.has_rows}
    for key, (work, done) in (foreseen or {}).items():
        if some.get(key) == work:
            yield key, some.pop(key), done
    for (key, work), done in zip(some.items(), work_out(find_program(), some.values())):
        yield key, work, done


def take_answers(
    store: Database, batch: Batch, work: Work, done: Done, held: Held, deeds: dict[int, Answer]
) -> None:
    """Notes the answers to a transaction's lines."""
    key = work.station, work.transaction
    places = batch.sessions[key]
    if deeds:
        places = [place for place in places if place not in deeds]
    batch.answers.update(zip(places, done.answers))
    for place, answer in zip(places, done.answers):
        one = batch.asked[place]
        if isinstance(one, Deed):
            write_deed(store, one, answer)
        elif isinstance(one, Message) and answer.outcome in ("refused", "fault"):
            refusal = describe_message(one.came or one.text, answer.name, one.received)
            batch.refusals.append((one, refusal, key[1]))
    if held.refusals or batch.mended:
        taken = [
            place
            for place, answer in zip(places, done.answers)
            if answer.outcome in ("accepted", "repeat")
        ]
        note_decided(batch, held, taken)
        forget_untaken(store, batch, held, taken, key[0])


def note_decided(batch: Batch, held: Held, taken: Iterable[int]) -> None:
    """Notes texts that waited for a decision and are taken by now."""
    waiting = {row.digest for row in held.refusals}
    for place in taken:
        one = batch.asked[place]
        if not isinstance(one, Message):
            continue
        if one.came:
            digest = digest_text(keep_text(one.came))
            batch.decided.append(Decided(one.station, digest, MENDED))
        elif waiting and (digest := digest_text(keep_text(one.text))) in waiting:
            batch.decided.append(Decided(one.station, digest, TAKEN))


def forget_untaken(
    store: Database, batch: Batch, held: Held, taken: Iterable[int], station: str
) -> None:
    """Removes what no source could take of events that came by now."""
    numbers = {batch.wishes[place].number for place in taken if place in batch.wishes}
    untaken = [row for row in held.refusals if row.cause == UNTAKEN and row.number in numbers]
    if untaken:
        store.execute_each(
            "delete from refusal where station = :station and cause = :cause and digest = :digest",
            [{"station": station, "cause": row.cause, "digest": row.digest} for row in untaken],
        )


def write_rows(writer: Writer, work: Work, held: Held, done: Done) -> Kept | None:
    """Has the accepted lines of a transaction and its rows written, and gives what is to be kept of it."""
    key = work.station, work.transaction
    if done.rows is None:
        if not held.lines:
            writer.drop_empty(key)
        return held.kept
    findings = [(one.kind.label, one.times, one.first, one.detail) for one in done.rows.findings]
    session, parts, _ = done.rows
    size = done.course.measure() if done.course else 0
    return writer.add(
        key, Written(held, done.accepted, session, parts, findings, done.course, size)
    )


def write_deed(store: Database, one: Deed, answer: Answer) -> None:
    """Adds an operator's line with its answer."""
    store.execute(
        store_lines.ADD_DEED,
        **name_deed(one),
        who=one.who,
        why=one.why,
        outcome=answer.outcome,
        name=answer.name,
        count=answer.count,
    )


def name_place(origin: str) -> str:
    """An origin as the places of a text have it; empty where it is no place in a file."""
    return f"\n{origin}\n" if PLACE.fullmatch(origin) else ""


def list_refusals(store: Database, batch: Batch) -> list[dict[str, Any]]:
    """What was refused, as rows."""
    kept, rows = dict[tuple[str, str], set[str]](), list[dict[str, Any]]()
    for one, refusal, transaction in batch.refusals:
        kind = one.station, refusal.cause
        if refusal.cause in FLOODS and kind not in kept:
            kept[kind] = store_lines.find_digests(store, *kind)
        row = {
            "station": one.station,
            "cause": refusal.cause,
            "digest": refusal.digest,
            "site": getattr(one, "site", None) or "",
            "transaction": transaction,
            "number": refusal.number,
            "sent_id": refusal.sent_id,
            "sent_number": refusal.sent_number,
            "what": refusal.what,
            "advice": refusal.advice,
            "text": refusal.text,
            "origins": name_place(one.origin),
            "at": refusal.at,
        }
        own = kept.get(kind, set())
        if len(own) >= store_lines.MOST_TEXTS and refusal.digest not in own:
            row |= {"digest": store_lines.MANY, "transaction": "", "number": None, "sent_id": ""}
            row |= {"sent_number": "", "what": store_lines.ONE_OF_MANY}
        own.add(str(row["digest"]))
        rows.append(row)
    return rows


def list_decisions(batch: Batch) -> list[dict[str, Any]]:
    """Which texts that waited for a decision were taken."""
    now = datetime.now(timezone.utc)
    return [one._asdict() | {"at": now, "who": "", "why": ""} for one in batch.decided]


def digest_stray(text: str) -> str:
    """By what a text of a station that no site has is known again."""
    return Refusal(UNKNOWN_STATION, "", "", "", "", text, None).digest


def list_strays(batch: Batch) -> list[dict[str, Any]]:
    """Messages of stations that no site has, as rows."""
    rows = list[dict[str, Any]]()
    for one, wish in batch.strays:
        named = find_names(one.text)
        rows.append(
            {
                "station": one.station,
                "digest": digest_stray(one.text),
                "site": one.site or "",
                "transaction": wish.text,
                "number": wish.number if wish.outcome == "event" else None,
                "sent_id": named.sent_id,
                "text": keep_text(one.text),
                "origin": one.origin,
                "origins": name_place(one.origin),
                "at": one.received or named.at,
            }
        )
    return rows


def write_mended(store: Database, batch: Batch) -> None:
    """Adds messages that were mended."""
    rows = [
        {
            "station": one.station,
            "digest": digest_text(one.came),
            "transaction": wish.text if wish.outcome == "event" else "",
            "number": wish.number if wish.outcome == "event" else None,
            "at": one.received or find_names(one.text).at,
            "mends": one.mends,
            "came": keep_text(one.came),
            "origin": one.origin,
        }
        for one, wish in batch.mended
    ]
    if rows:
        store.execute_each(store_lines.ADD_MENDED, rows)


def write_levels(store: Database, batch: Batch, sites: dict[str, str]) -> set[Key]:
    """Adds what registers read in MeterValues outside transactions, and gives the transactions that they may say
    more of than readings do."""
    found, near = dict[tuple[str, int], list[tuple[datetime, int]]](), set[Key]()
    for one in batch.others:
        evse, levels = read_levels(one.text) if one.station in sites else (0, [])
        for level in levels:
            at = datetime.fromtimestamp(level.at, timezone.utc)
            found.setdefault((one.station, evse), []).append((at, level.mwh))
    for (station, evse), some in sorted(found.items()):
        store_lines.merge_level(store, station, evse, some)
        if evse:
            near.update(find_near(store, station, evse, min(some)[0], max(some)[0]))
    return near


# The plan ------------------------------------------------------------------------------------------------------------


def change_site(
    store: Database, site: str, rules: Rules, author: Author, where: str = "plan"
) -> int:
    """Adds a site or gives it other rules, and computes the rows of its transactions again. Returns how many of these
    there were. Raises InputError."""
    with store.transaction():
        if not write_site(store, site, rules, author, where):
            return 0
        return compute_again(store, site, rules)


def change_power(
    store: Database, station: str, most_kw: int, author: Author, where: str = "plan"
) -> None:
    """Says the greatest power of a station's EVSEs in kW, and computes the rows of its transactions again. Raises
    InputError."""
    with store.transaction():
        if write_power(store, station, most_kw, author, where):
            rows = store.fetch(
                "select transaction_id, site from session where station = :station", station=station
            )
            sites = {(station, row.transaction_id): row.site for row in rows}
            for start in range(0, len(rows), SESSIONS_AT_ONCE):
                renew_sessions(store, dict([*sites.items()][start : start + SESSIONS_AT_ONCE]))


def compute_again(store: Database, site: str, rules: Rules) -> int:
    """Computes the rows of a site's transactions by these rules, within a database transaction that holds its plan."""
    count, after = 0, ("", "")
    asked = """select station, transaction_id from session where site = :site and (station > :station
    or station = :station and transaction_id > :transaction) order by station, transaction_id limit :most"""
    while True:
        rows = store.fetch(
            asked, site=site, station=after[0], transaction=after[1], most=SESSIONS_AT_ONCE
        )
        if not rows:
            return count
        keys = [(row.station, row.transaction_id) for row in rows]
        renew_sessions(store, dict.fromkeys(keys, site), {site: rules})
        count, after = count + len(keys), keys[-1]


def renew_sessions(
    store: Database, sites: dict[Key, str], rules: dict[str, Rules] | None = None
) -> None:
    """Computes the rows of transactions again, within a database transaction. `sites`: those of the transactions."""
    rules = rules or find_all_rules(store, set(sites.values()))
    held = store_lines.hold_sessions(store, sites)
    powers = find_powers(store, held)
    works = {}
    for key, one in held.items():
        own = own_rules(rules[one.site], one.own_order, powers.get(key[0]))
        works[key] = Work(*key, one.site, own, one.lines, [], list_conflicts(key, one), True)
    writer, unmeasured = Writer(store), set[Key]()
    for key, work, done in work_on(works):
        write_rows(writer, work, held[key], done)
        if is_unmeasured(done):
            unmeasured.add(key)
    writer.write()
    estimate_parts(store, unmeasured)


def order_session(
    store: Database, station: str, transaction: str, order: str, author: Author
) -> None:
    """Has a transaction's readings taken in an order of its own, and computes its rows again. Raises InputError where
    there is no such transaction."""
    key = station, transaction.lower()
    with store.transaction():
        row = store.fetch_one(
            "select site from session where station = :station and transaction_id = :transaction",
            station=station,
            transaction=key[1],
        )
        if row is None:
            raise InputError(f"the store has no transaction {transaction!r} of station {station!r}")
        share_sites(store, [], [row.site])
        store.execute(
            "update session set own_order = :order where station = :station and transaction_id = :transaction",
            order=order,
            station=station,
            transaction=key[1],
        )
        renew_sessions(store, {key: row.site})
        now = datetime.now(timezone.utc)
        deed = Deed(ORDER, *key, 0, author.who, author.why, now, f"operator {author.who}")
        write_deed(store, deed, Answer(f"by {order}", "", None, key[1]))


def take_strays(store: Database, stations: Iterable[str] | None = None) -> list[Answer]:
    """Settles what came of stations before the plan had them, in the order of receipt. `stations`: None for all that
    the plan has by now."""
    asked = """select station, digest, site, text, received, origin from stray where station = :station
    order by received, origin, digest"""
    if stations is None:
        rows = store.fetch("select distinct station from stray order by station")
        stations = [row.station for row in rows]
    answers = list[Answer]()
    for station in store_lines.find_sites(store, sorted(stations)):
        rows = store.fetch(asked, station=station)
        texts = [
            Message(station, row.text, row.received, row.origin, row.site or None) for row in rows
        ]
        answers += settle(store, texts, also=partial(forget_strays, rows))
    return answers


def forget_strays(rows: Sequence[Row], store: Database) -> None:
    """Removes strays that were settled."""
    store.execute_each(
        "delete from stray where station = :station and digest = :digest",
        [{"station": row.station, "digest": row.digest} for row in rows],
    )
