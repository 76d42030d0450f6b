"""Says what is wrong with a script.

    ocpp-board explain SCRIPT

reports each fault and each refusal with the file, the number of its line, the line, the cause in words and the
remedy. For a message that was refused it also says which member broke which check. The program answers the script,
and its answers decide; the command looks for the causes in the line afterwards.

    day.script line 7: msg CS_01 [2,"1","Heartbeat",{}]
      fault UnknownStation: no station CS_01 is declared
      remedy: the nearest declared name is CS-01

If a board's periods are wrong because stations list readings again, it names the line that mends it, a line
`order <site> moment`. That is a hint and no mistake; so is a report of a station near its limits.

To tell the answers apart, it adds lines of its own: `mark` after lines that may write nothing, and lists of
transactions after boards. They change nothing. It reports the first mistakes of a kind, and counts the others.
"""

import argparse
import difflib
import re
from collections.abc import Iterable, Sequence

from ocpp_board.commands.options import add_program, choose_program
from ocpp_board.escapes import shown
from ocpp_board.ledger.answers import read_answer
from ocpp_board.ledger.near_limits import REMEDY as MORE_ROOM
from ocpp_board.ledger.near_limits import USUAL, NearLimits
from ocpp_board.ledger.program import Program, find_program
from ocpp_board.ledger.repeat_hints import find_hint, list_falls
from ocpp_board.ledger.replay import Key, Replayed, replay
from ocpp_board.limits import GREATEST_LIMITS, LONGEST_LINE, MOST_SITES, MOST_STATIONS
from ocpp_board.messages.message_faults import REMEDIES, Said, message_fault
from ocpp_board.sources.files import is_gzip, open_input
from ocpp_board.sources.lines import NAMES, TEXTS, explain_line, split_words
from ocpp_board.statuses import Status

ENDING = """\
Exit status: 0 if there is nothing to report; 1 if something was reported; 2 if the words are wrong, the program is not
there, or a file can't be read or written."""
# Mistakes of a kind that are reported one by one, and characters of a line that are shown.
MOST_REPORTED = 10
SHOWN = 200
# The first words of lines that need no ledger.
NEED_NONE = ("now", "mark", "period", "order", "settle", "asks")


class Plan:
    """What the script has declared so far, as far as the program took it."""

    def __init__(self) -> None:
        self.sites: dict[str, int] = {}
        self.stations: dict[str, tuple[str, int]] = {}
        self.limits, self.readings = USUAL, 0
        self.by_moment = set[str]()
        self.near = NearLimits()
        self.opened: tuple[int, str] | None = None

    def take(self, number: int, words: list[str]) -> None:
        """A line that was no fault."""
        if words[0] == "limits":
            self.limits = tuple(map(int, words[1:]))
        elif words[0] == "station":
            self.sites.setdefault(words[1], number)
            self.stations[words[2]] = words[1], number
            self.near.limits[words[2]] = self.limits
            self.readings += self.limits[2]
        elif words[0] == "order":
            (self.by_moment.add if words[2] == "moment" else self.by_moment.discard)(words[1])
        elif words[0] not in NEED_NONE and self.opened is None:
            self.opened = number, " ".join(words[:2])

    def explain_limit(self, words: list[str]) -> Said:
        """Why a declaration is past the plan's limits."""
        if words[0] == "limits":
            limits = zip(GREATEST_LIMITS.items(), words[1:])
            wrong = [
                f"the number of {what} is {text}, and not 1 to {most}"
                for (what, most), text in limits
                if not 1 <= int(text) <= most
            ]
            return "; ".join(wrong), "numbers in range"
        if words[0] == "period":
            return f"{words[2]} seconds are no settlement period", "300, 900, 1800 or 3600"
        if len(self.stations) >= MOST_STATIONS:
            return (
                "it would be the 65th station",
                "at most 64 stations; run the others in a script of their own",
            )
        if words[1] not in self.sites and len(self.sites) >= MOST_SITES:
            return (
                "its site would be the 17th",
                "at most 16 sites; run the others in a script of their own",
            )
        return (
            f"with it the stations' limits of readings would add up to {self.readings + self.limits[2]:,}, more than "
            "1,048,576",
            "a `limits` line with fewer readings before the stations",
        )

    def find_near(self, what: str, name: str, names: Iterable[str]) -> str:
        """The remedy for a name that is not declared."""
        known = {each.lower(): each for each in names}
        if not known:
            return f"declare it before line {self.find_opening()}; the script declares no {what}"
        near = difflib.get_close_matches(name.lower(), known, 1, 0.5)
        if near:
            return f"the nearest declared name is {known[near[0]]}"
        return f"declare it before line {self.find_opening()}; declared are {', '.join(list(known.values())[:5])}"

    def find_opening(self) -> int:
        """The line that needed the ledgers first."""
        return self.opened[0] if self.opened else 1


class Explainer:
    """Says what is wrong with the lines of a script."""

    def __init__(self, name: str = "") -> None:
        """`name`: that of the script, where it is a file."""
        self.name, self.where = (f"{name}: ", f"{name} line") if name else ("", "line")
        self.plan = Plan()
        self.hinted = set[str]()
        self.counts: dict[str, int] = {}

    def take(self, line: Replayed) -> None:
        """Takes the next line, and reports what is wrong with it, if something is."""
        words = split_words(line.line.decode("utf-8", "replace"))
        name = line.answer.removeprefix("fault ")
        if name == line.answer or name in ("UnknownStation", "UnknownSite", "UnknownTransaction"):
            self.plan.take(line.number, words)
        if name != line.answer:
            self.report(line, line.answer, *self.explain_fault(name, line, words))
        elif words[0] in TEXTS:
            self.take_text(line, words)
        elif line.answer.startswith("refused "):
            unknown = "the command was refused", "see docs/rules.md"
            said = REMEDIES.get(line.answer.removeprefix("refused "), unknown)
            self.report(line, line.answer, *said)
        elif line.board and line.lists:
            self.take_falls(line, line.board.site)

    def take_text(self, line: Replayed, words: list[str]) -> None:
        """Takes a line with a station's text."""
        reply = line.answer
        if words[0] == "deliver":
            reply = read_answer(line.answer).reply or ""
        elif words[0] == "asks":
            reply = line.answer.removeprefix("reply ")
        if reply.startswith("[4,"):
            named = re.search(r',"([A-Za-z]+)",\{\}\]$', reply)
            said = message_fault(words[-1], named[1] if named else "")
            self.report(line, reply, *said)
        elif reply.startswith("[3,") and words[0] != "asks":
            for near in self.plan.near.take(words[1], words[2]):
                self.hint(line, near, MORE_ROOM)

    def take_falls(self, line: Replayed, site: str) -> None:
        """Takes a board by sequence with the lists of its transactions that fell."""
        if site not in self.hinted and (hint := find_hint(site, line.lists)):
            self.hinted.add(site)
            self.hint(line, hint.said, hint.remedy)

    def explain_fault(self, name: str, line: Replayed, words: list[str]) -> Said:
        """Why a line is a fault of this name."""
        plan = self.plan
        if name == "LineTooLong":
            return f"the line has more than {LONGEST_LINE:,} bytes", "a shorter line"
        if name == "BadLine":
            return explain_line(line.line, line.number)
        if name == "DeclaredLate" and plan.opened:
            return (
                f"line {plan.opened[0]} ({shown(plan.opened[1])}) needed the ledgers, and what they keep is fixed "
                "from then on",
                f"put it before line {plan.opened[0]}",
            )
        if name == "PlanLimit":
            return plan.explain_limit(words)
        if name == "StationTwice":
            site, at = plan.stations[words[2]]
            return (
                f"station {words[2]} is declared on site {site} by line {at}",
                "leave one of them out",
            )
        if name == "UnknownStation":
            return self.explain_station(words)
        if name == "UnknownTransaction":
            return (
                f"station {words[1]} has no event of transaction {shown(words[2])} yet",
                "ask behind its messages, by the id that they have",
            )
        if name == "UnknownSite" and words[0] in ("period", "order", "settle"):
            return (
                f"no station of site {words[1]} is declared yet",
                "put it behind a `station` line of the site",
            )
        if name == "UnknownSite":
            return f"no site {words[1]} is declared", plan.find_near("site", words[1], plan.sites)
        return "it was refused", "see docs/formats.md"

    def explain_station(self, words: list[str]) -> Said:
        """Why no station of this name is declared."""
        cause = f"no station {words[1]} is declared"
        if words[0] in TEXTS and words[2] and not words[2].lstrip().startswith(("[", "{")):
            return (
                f"{cause}, and no message begins with {shown(words[2].split(' ')[0])}",
                f"a name has no blank; {NAMES}",
            )
        return cause, self.plan.find_near("station", words[1], self.plan.stations)

    def report(self, line: Replayed, text: str, cause: str, remedy: str) -> None:
        """Reports a mistake; of a kind the first ones."""
        kind = re.sub(r'^\[4,"(?:[^"\\]|\\.)*",', "", text).removesuffix(",{}]")
        kind = kind.replace('"', "").replace(",", " ")
        self.counts[kind] = self.counts.get(kind, 0) + 1
        if self.counts[kind] <= MOST_REPORTED:
            print(
                f"{self.where} {line.number}: {shown(line.line.decode('utf-8', 'replace'), SHOWN)[1:-1]}\n"
                f"  {kind}: {cause}\n  remedy: {remedy}"
            )

    def hint(self, line: Replayed, said: str, remedy: str) -> None:
        """Reports what is no mistake of the script."""
        print(f"{self.where} {line.number}: {said}\n  remedy: {remedy}")

    def end(self, lines: int) -> int:
        """Reports how many lines there were, and gives the exit status."""
        for kind, count in self.counts.items():
            if count > MOST_REPORTED:
                print(f"{self.name}and {count - MOST_REPORTED:,} more lines: {kind}")
        print(f"{self.name}lines: {lines:,}, reported: {sum(self.counts.values()):,}")
        return Status.REPORTED if self.counts else Status.DONE


def find_falls(replayed: Iterable[Replayed]) -> dict[int, list[Key]]:
    """By the numbers of lines `board` of sites by sequence, the transactions with a register that fell."""
    plan, found = Plan(), dict[int, list[Key]]()
    for line in replayed:
        if line.line.startswith(b"order ") and not line.answer:
            plan.take(line.number, split_words(line.line.decode("ascii")))
        if line.board and line.board.site not in plan.by_moment:
            if falls := list_falls(line.board):
                found[line.number] = falls
    return found


def explain(program: Program, lines: Sequence[bytes], name: str = "") -> int:
    """Reports what is wrong with a script, and gives the exit status. Raises ProgramError."""
    explainer = Explainer(name)
    replayed = list(replay(program, lines, {}))
    if asks := find_falls(replayed):
        replayed = list(replay(program, lines, asks))
    for line in replayed:
        explainer.take(line)
    return explainer.end(len(lines))


def add_words(parser: argparse.ArgumentParser) -> None:
    """The words of the command."""
    parser.add_argument(
        "script",
        nargs="?",
        default="-",
        metavar="SCRIPT",
        help="the script, standard input if absent or -",
    )
    add_program(parser)


def run(words: argparse.Namespace) -> int:
    """Reports what is wrong with a script."""
    choose_program(words.program)
    name = "" if words.script == "-" else words.script
    with open_input(words.script) as script:
        if is_gzip(script):
            print(f"{name} line 1: the script is compressed by gzip".lstrip())
            print("  remedy: gunzip -c SCRIPT | ocpp-board explain")
            return Status.REPORTED
        lines = script.readlines()
    return explain(find_program(), lines, name)
