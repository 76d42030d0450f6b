"""The kinds of findings: their names, what they say, what they do to figures, and whether they hold a bill."""

from enum import Enum


class Effect(Enum):
    """What a finding does to the figures of its session, the gravest first."""

    WRONG = "a number is wrong"
    LACKS = "energy is lacking"
    OTHER = "neither"


class Kind(Enum):
    """The kinds of findings, the gravest for a bill first. `holds`: the energy of the session is wrong, and its bill is
    held until somebody releases it."""

    POWER = (
        "power that cannot be",
        "Between two readings the register rose faster than an EVSE can charge (`plan site --most-kw`, `plan station "
        "--most-kw`). One of the two readings or its time is wrong, and so is the energy. Compare them with the "
        "readings before and after: correct the wrong one by `operate correct`, or void its event by `operate void`. "
        "If it is right, `release` the session.",
        Effect.WRONG,
        True,
    )
    MORE_POWER = (
        "more power than before",
        "The register rose faster than in nearly all of the station's sessions around it. If the station can give so "
        "much, say so by `plan station --most-kw`; else correct the wrong reading by `operate correct`.",
        Effect.WRONG,
        True,
    )
    SIGNED = (
        "signed value differs",
        "The signed value of a reading differs from the plain one, which the ledger counts. Bill the session by its "
        "signed values, which the transactions table and the signed files have: `operate correct` the readings, or "
        "declare the difference by `adjust credit`.",
        Effect.WRONG,
        True,
    )
    UNIT = (
        "value in another unit",
        "The register rose by a thousandth of what the measured power gives, or by a thousand times as much, or a "
        "member `unit` is beside a value, where OCPP 2.0.1 has none: the value is in another unit than the "
        "message says. Take the log with `--mend SITE=unit`, correct the readings by `operate correct`, or declare "
        "the difference by `adjust credit`.",
        Effect.WRONG,
        True,
    )
    RESET = (
        "register reset or exchanged",
        "The register reads less than before and stays there: the meter was reset or exchanged within the session, "
        "and its energy is too low by what was lost. Declare it by `adjust exchange`: `adjust propose` has the line, "
        "by which the session has its rises before and after. Put in what the two meters read, if you know it; then "
        "`release` the session.",
        Effect.WRONG,
        True,
    )
    REGISTER_FALLS = (
        "register falls",
        "The register reads less than before, and the fall counts as down. Compare the reading with those before and "
        "after. If it is wrong, correct it by `operate correct`, or void its event by `operate void`; else declare "
        "what was lost by `adjust credit`, and `release` the session.",
        Effect.WRONG,
        True,
    )
    ORDERS = (
        "energy differs by order",
        "A clock was set back, or a reading has a wrong time: by the sequence of its events the session has another "
        "energy than by the moments of its readings. The detail has both, and says which can be. `operate order "
        "STATION ID sequence` has this session taken by sequence, `.. moment` by moment.",
        Effect.WRONG,
        True,
    )
    BEGIN_LAST = (
        "begin listed behind the end",
        "The end lists the session's first reading again, with its own time and behind its own reading: so the "
        "session ends as it began. Take the log with `--mend SITE=begin-at-end`, or correct the listed reading to "
        "that of the end by `operate correct`.",
        Effect.WRONG,
        True,
    )
    ID_AGAIN = (
        "transaction id used again",
        "A session began under the id after its end. Two sessions are mixed in one, or the second one was refused: "
        "`take STATION ID --as OTHER-ID` makes it a session of its own, and with `--since TIME` moves what the first "
        "one took.",
        Effect.WRONG,
        True,
    )
    OVERLAP = (
        "sessions overlap",
        "Two sessions of an EVSE ran at the same time, and their registers overlap: both have the same energy. "
        "Declare by `adjust credit` what the second one did not take, and `release` it.",
        Effect.WRONG,
        True,
    )
    ONE_METER = (
        "two EVSEs with one meter",
        "Two sessions of different EVSEs ran at the same time, and their registers are those of one meter: each has "
        "the energy of both. Part it by `adjust credit`, and `release` both.",
        Effect.WRONG,
        True,
    )
    REPEATED = (
        "readings repeated at the end",
        "An event lists readings again that came before. The session's net energy is right, but its periods are not: "
        "the fall back to the first of them is in one period, and the second rise in the others. Run the tool again "
        "over the log with the option that the detail names: then readings that are listed again change nothing. In a"
        " store, `plan site --order moment` does so, and `operate order` for one session.",
        Effect.WRONG,
        False,
    )
    ON_BOUNDARIES = (
        "readings where periods begin",
        "Most readings of the station lie where a period begins, and the site settles by `later`: the energy of each "
        "period is shown in the next one. Run the tool again over the log with the option that the detail names.",
        Effect.WRONG,
        False,
    )
    CLOCK_BACK = (
        "clock goes back",
        "An event has an earlier time than the event before it, so its energy may be in a wrong period. The session's"
        " energy does not change by that. Compare the times in the log with those of receipt before you settle its "
        "periods.",
        Effect.WRONG,
        False,
    )
    CLOCK_FAR = (
        "clock far from receipt",
        "An event's time is more than 5 minutes after its receipt, or more than an hour before it and the event was "
        "not offline. Its energy may be in a wrong period. If the station's clock was wrong, settle its periods by "
        "the times of receipt in the log.",
        Effect.WRONG,
        False,
    )
    READ_LATER = (
        "reading later than its event",
        "A reading has a time more than a minute after that of the event that has it. One of the two is wrong, and "
        "the energy may be in a wrong period.",
        Effect.WRONG,
        False,
    )
    EVSE_CHANGES = (
        "EVSE changes",
        "Events of the session name different EVSEs. All its energy counts at the one that its first event names.",
        Effect.WRONG,
        False,
    )
    NO_READING = (
        "no counted reading",
        "All messages of the session came, and none has a reading of energy, so it shows 0 kWh. Declare its energy by "
        "`adjust estimate --register meter-values` where MeterValues of its EVSE are around it (`estimates` lists "
        "them), else by `adjust credit`, as the log or the meter says.",
        Effect.LACKS,
        False,
    )
    OTHER_ENERGY = (
        "energy that does not count",
        "The session has readings of energy, and none of them counts: they are of an interval, of one phase, or of "
        "another place than the outlet. So it shows 0 kWh. The log has these readings: declare what they say by "
        "`adjust credit`.",
        Effect.LACKS,
        False,
    )
    ONE_READING = (
        "one reading only",
        "The session is over and has one reading in all, so it shows 0 kWh, and nobody knows what it took. Declare "
        "the register at its end by `adjust estimate`, or its energy by `adjust credit`.",
        Effect.LACKS,
        False,
    )
    NO_BEGIN = (
        "no reading at the start",
        "The first reading came later than a reading of the start may (`plan site --reading-within`). What the "
        "session took before is not in it. Declare it by `adjust credit`.",
        Effect.LACKS,
        False,
    )
    NO_END = (
        "no reading at the end",
        "The last reading came earlier than a reading of the end may (`plan site --reading-within`). What the session"
        " took after it is not in it. Declare the register at its end by `adjust estimate`: `--register next` takes "
        "that of the next session.",
        Effect.LACKS,
        False,
    )
    STANDS_STILL = (
        "register stands still",
        "The register did not move while power was measured: the meter or its reading failed. Declare what the power "
        "gives, which the detail has, by `adjust credit`.",
        Effect.LACKS,
        False,
    )
    ROSE_BETWEEN = (
        "register rose between sessions",
        "The register of the EVSE reads more at the start of this session than at the end of the one before, by more "
        "than 100 Wh a day. No session has this energy. Look for messages between the two: `take` lists what was "
        "refused, and the log has the rest.",
        Effect.LACKS,
        False,
    )
    OUTSIDE = (
        "energy outside sessions",
        "The register rose in MeterValues that the station sent outside its transactions, and no session was there "
        "then. Look for a session that was refused or never reported: `take` lists what was refused, and the log has "
        "the rest.",
        Effect.LACKS,
        False,
    )
    NOT_ENDED = (
        "no end, and a later session began",
        "A later session of the same EVSE began, so this one is over and its end did not come. What it took after its"
        " last reading is not in it: `adjust estimate .. --register next` closes it by the first reading of the later"
        " one.",
        Effect.LACKS,
        False,
    )
    NUMBERS_ABOVE_0 = (
        "numbers begin above 0",
        "No Started event came, and the first sequence number is above 0. What came before it is not counted as "
        "missing. Look for it in the log of the time before, such as a rotated file, and declare what lacks by "
        "`adjust credit`.",
        Effect.LACKS,
        False,
    )
    EXCHANGED = (
        "meter exchanged between sessions",
        "The register of the EVSE reads less at the start of this session than at the end of the one before: the "
        "meter was exchanged or reset between the two. No number is wrong.",
        Effect.OTHER,
        False,
    )
    ONE_COUNTER = (
        "one counter for several EVSEs",
        "The numbers that seem to be missing in sessions of this station came in sessions of its other EVSEs at the "
        "same time: the station counts all its events with one counter. Probably nothing is missing.",
        Effect.OTHER,
        False,
    )
    STEPS = (
        "numbers in steps",
        "The station counts its events in steps of more than 1, so numbers seem to be missing. All events came from "
        "the start to the end of these sessions.",
        Effect.OTHER,
        False,
    )
    REFUSED_WAIT = (
        "refused messages wait",
        "Messages of the session were refused and wait for a decision: `take` lists them. They may have energy that "
        "the session lacks, or say that what it has is wrong.",
        Effect.OTHER,
        False,
    )

    def __init__(self, label: str, meaning: str, effect: Effect, holds: bool) -> None:
        self.label, self.meaning, self.effect, self.holds = label, meaning, effect, holds
