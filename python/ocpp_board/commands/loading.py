"""Takes records of a source into a store: the plan first, then messages and operators' lines in batches."""

from collections import Counter, deque
from collections.abc import Collection, Iterable, Mapping
from dataclasses import dataclass, field, replace

from ocpp_board.commands.options import find_by_site
from ocpp_board.ledger.engine import change_site, settle, take_strays
from ocpp_board.ledger.mending import count_mends
from ocpp_board.ledger.settlers import Pending, Settlers
from ocpp_board.records import Answer, Asked, LeftOut, Limits, Rules
from ocpp_board.sources.script import Declaration
from ocpp_board.sources.stations import PlanOptions
from ocpp_board.store.database import Database
from ocpp_board.store.lines import note_left_out
from ocpp_board.store.plan import Author, find_rules, write_station

# Records that are settled at once, and how many such batches are under way at once where processes share them.
BATCH, MOST_UNDER_WAY = 40_000, 3
# The rules of a site of a script that declares none.
OF_SCRIPTS = Rules(order="sequence", settle="later")


@dataclass(frozen=True)
class Wanted:
    """What is asked of sites: by `plan` their periods, orders and rules of settling, their zones, and the greatest
    power of an EVSE."""

    plan: PlanOptions
    zones: Mapping[str, str]
    most_kw: int | None = None

    def find_rules(self, site: str, before: Rules) -> Rules:
        """The rules of a site that has these before."""
        words = self.plan.find_words(site)
        return replace(
            before,
            period=words.period or before.period,
            order=words.order or before.order,
            settle=words.settle or before.settle,
            zone=find_by_site(self.zones, site) or before.zone,
            most_kw=self.most_kw or before.most_kw,
        )


@dataclass
class Declared:
    """What a script declares: the sites of its stations, and their rules."""

    site_of: dict[str, str] = field(default_factory=dict)
    rules: dict[str, Rules] = field(default_factory=dict)
    limits: Limits | None = None

    def take(self, one: Declaration) -> None:
        """Takes a declaration."""
        if one.word == "limits":
            self.limits = Limits(int(one.words[1]), int(one.words[2]))
            return
        site, word = one.words
        if one.word == "station":
            self.site_of[word] = site
            rules = self.rules.get(site, OF_SCRIPTS)
            self.rules[site] = replace(rules, limits=self.limits) if self.limits else rules
        elif one.word == "period":
            self.rules[site] = replace(self.rules[site], period=int(word))
        elif one.word == "order":
            self.rules[site] = replace(self.rules[site], order=word)
        else:
            self.rules[site] = replace(self.rules[site], settle=word)


class Loader:
    """Takes records into a store. `counts`: how many of them became what; `changed`: the stations and transactions that
    something was accepted of, and the stations of which something was refused, with no transaction; what processes
    settle is not in it.
    """

    def __init__(
        self,
        store: Database,
        wanted: Wanted,
        author: Author,
        settlers: Settlers | None = None,
    ) -> None:
        """`settlers`: processes that settle what `submit` gets."""
        self.store, self.wanted, self.author = store, wanted, author
        self.settlers = settlers
        self.under_way = deque[Pending]()
        self.counts = Counter[str]()
        self.changed = set[tuple[str, str | None]]()
        self.site_of = {
            row.station: row.site for row in store.fetch("select station, site from station")
        }
        self.sites = set[str]()

    def plan(self, site_of: Mapping[str, str], rules: Mapping[str, Rules] | None = None) -> None:
        """Takes stations and their sites into the plan. `rules`: those that a script declares. Messages of these
        stations that came before are taken. Raises InputError."""
        for site in dict.fromkeys(site_of.values()):
            if site not in self.sites:
                self.plan_site(site, (rules or {}).get(site))
        new = [station for station, site in site_of.items() if self.site_of.get(station) != site]
        if not new:
            return
        with self.store.transaction():
            for station in new:
                write_station(self.store, station, site_of[station], self.author)
                self.site_of[station] = site_of[station]
        self.take_strays(new)

    def plan_site(self, site: str, declared: Rules | None) -> None:
        """Takes a site into the plan, or gives it the rules that are asked for."""
        before = find_rules(self.store, site) or Rules()
        if declared:
            declared = replace(declared, zone=before.zone, most_kw=before.most_kw)
        rules = self.wanted.find_rules(site, declared or before)
        change_site(self.store, site, rules, self.author)
        self.sites.add(site)

    def note_left_out(self, found: Iterable[LeftOut]) -> None:
        """Notes stations whose messages are left out for their version."""
        some = list(found)
        if some:
            with self.store.transaction():
                note_left_out(self.store, some)

    def take_strays(self, stations: Collection[str]) -> None:
        """Takes what came of stations before the plan had them."""
        asked = "select distinct station from stray"
        waiting = {row.station for row in self.store.fetch(asked)} & {*stations}
        for station in sorted(waiting):
            for answer in take_strays(self.store, station):
                self.note(station, answer)

    def settle(self, asked: list[Asked]) -> list[Answer]:
        """Settles records, and gives their answers."""
        answers = settle(self.store, asked)
        for one, answer in zip(asked, answers):
            self.note(one.station, answer)
        self.counts += count_mends(answers)
        return answers

    def submit(self, asked: list[Asked]) -> None:
        """Settles records, by processes that go on meanwhile where there are some. Raises StoreError and
        ProgramError, also for records that were submitted before."""
        if self.settlers is None:
            self.settle(asked)
            return
        self.under_way.append(self.settlers.submit(asked))
        if len(self.under_way) > MOST_UNDER_WAY:
            self.counts += self.under_way.popleft().get()

    def finish(self) -> None:
        """Waits for what was submitted."""
        while self.under_way:
            self.counts += self.under_way.popleft().get()

    def note(self, station: str, answer: Answer) -> None:
        """Counts an answer, and notes what it changed."""
        self.counts[answer.outcome] += 1
        if answer.outcome == "accepted":
            self.changed.add((station, answer.transaction))
        elif answer.outcome in ("refused", "fault", "untaken", "stray"):
            self.changed.add((station, None))
