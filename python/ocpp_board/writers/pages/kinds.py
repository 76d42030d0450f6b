"""What findings and states mean, and which of them are grave."""

from ocpp_board.ledger.findings import Effect, Kind

KINDS = {kind.label: kind for kind in Kind}
# What the states of sessions that are not complete mean, by how they begin.
STATES = {
    "numbers missing": "Messages between the first and the last did not come or were refused. Look for their numbers "
    "in the list of what was refused and in the log with its rotated files. A station sends again only what is still "
    "in its queue.",
    "voided by": "An operator voided events, and no other is missing.",
    "no start": "The first event is no start. Look for it in the list of what was refused and in the log of the time "
    "before, such as a rotated file.",
    "a start or end misplaced": "A start or an end is between the first and the last event.",
    "events after the end": "Events came after the end that an earlier board had.",
    "one event: no end yet, or no start": "Only one event came: the session begins, or the others are missing.",
    "no end yet, or a start or end misplaced": "No number is missing between the first and the last. The session "
    "goes on, or its start or end did not come or is in a wrong place.",
    "no end yet": "The session goes on, or its end did not come.",
}
# Problems that have another name than the state that they come from.
NAMES = {"voided by": "voided by an operator"}
VOIDED, FALLS = "voided events", "down is not 0"
OTHERS = {
    FALLS: "A register fell, or readings were listed again. Look at it before you settle periods.",
    VOIDED: "An operator voided them, so they don't count.",
}


def find_state(state: str) -> str:
    """Finds the problem that a state of a session that is not complete is."""
    return next((name for name in STATES if state.startswith(name)), "no end yet")


def explain(name: str) -> str:
    """Explains a problem by its name."""
    if name in KINDS:
        return KINDS[name].meaning
    return STATES.get(name, OTHERS.get(name, ""))


def is_wrong(name: str) -> bool:
    """Whether a number is wrong by a finding."""
    return name in KINDS and KINDS[name].effect is Effect.WRONG


# All problems, the gravest first.
ORDER = [
    *(kind.label for kind in Kind if kind.effect is Effect.WRONG),
    FALLS,
    *STATES,
    *(kind.label for kind in Kind if kind.effect is not Effect.WRONG),
    VOIDED,
]
PLACE = {name: place for place, name in enumerate(ORDER)}


def find_place(name: str) -> int:
    """Finds the place of a problem among all, the gravest first."""
    return PLACE.get(name, len(PLACE))
