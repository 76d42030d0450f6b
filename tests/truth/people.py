"""Cases of what people correct, declare, release and settle."""

from tests.truth.case import Case

SOUND = """
S T1 0 10:00 1000
U T1 1 10:15 1300
E T1 2 10:30 1700
"""
WRONG = SOUND.replace("E T1 2 10:30 1700", "E T1 2 10:30 1001700")
POWER = {"A/T1": {"power that cannot be": ""}}
RESET = """
S T1 0 10:00 5000
U T1 1 10:15 10000
U T1 2 10:30 0
E T1 3 10:45 4995
"""

CASES = [
    Case(
        "a reading of a megawatt-hour too much is corrected",
        7,
        "the end has two digits too many",
        WRONG,
        {"A/T1": 700},
        found=POWER,
        remedy=("operate correct A T1 2 0 --kwh 1.7 --why 'read at the meter'",),
    ),
    Case(
        "a correction is shown and not done by its preview",
        7,
        "the operator looks first",
        WRONG,
        {"A/T1": 700},
        found=POWER,
        remedy=(
            "operate correct A T1 2 0 --kwh 1.7 --why look --preview",
            "operate correct A T1 2 0 --kwh 1.7 --why look",
        ),
        shows=(
            (
                "operate correct A T1 2 0 --kwh 1.6 --why again --preview",
                "0.700 kWh, then 0.600 kWh",
            ),
        ),
    ),
    Case(
        "readings are corrected by a table",
        7,
        "a meter class was set wrong for two sessions",
        SOUND.replace("1300", "1310").replace("1700", "1710")
        + "S T2 0 12:00 1710\nE T2 1 12:30 2710",
        {"A/T1": 710, "A/T2": 1000},
        after={"A/T1": 700, "A/T2": 990},
        files={
            "c.csv": "station,transaction,number,place,kwh\nA,T1,2,0,1.7\nA,T2,0,0,1.7\nA,T2,1,0,2.69\n"
        },
        remedy=("operate correct --table {dir}/c.csv --why class",),
        is_advised=False,
    ),
    Case(
        "a corrected session stays complete",
        7,
        "the start reads too little",
        SOUND.replace("1000", "100"),
        {"A/T1": 1600},
        after={"A/T1": 700},
        is_advised=False,
        remedy=("operate correct A T1 0 0 --kwh 1 --why 'read at the meter'",),
        shows=(
            ("export --station A --transaction T1", "erase A t1 0"),
            ("bills --site north --month 2026-03", ",0.7,0,0.5000,yes,0,"),
        ),
    ),
    Case(
        "a wrong event in the middle is voided",
        7,
        "one reading of another meter",
        SOUND.replace("1300", "9000000"),
        {"A/T1": 700},
        found={"A/T1": {"power that cannot be": ""}},
        fine=("register falls", "register reset or exchanged"),
        remedy=("operate void A T1 1 --why 'another meter'",),
    ),
    Case(
        "a void is taken back",
        7,
        "the reading was right after all",
        SOUND,
        {"A/T1": 700},
        is_advised=False,
        remedy=("operate void A T1 2 --why wrong", "operate restore A T1 2 --why right"),
    ),
    # Declared facts.
    Case(
        "a meter is exchanged in a session",
        8,
        "the old one ended at 12 kWh, the new one began at 0",
        RESET,
        {"A/T1": 7000 + 4995},
        found={"A/T1": {"register reset or exchanged": "10.000 kWh"}},
        remedy=(
            "adjust exchange A 1 --at 2026-03-01T10:20:00Z --old-end 12 --new-begin 0 --why exchanged",
            "release A T1 --why 'by the meters'",
        ),
    ),
    Case(
        "a reset is adjusted as it is proposed",
        8,
        "the meter began anew and lost what it had",
        RESET,
        {"A/T1": 5000 + 4995},
        found={"A/T1": {"register reset or exchanged": "10.000 kWh"}},
        remedy=("sh: adjust propose --site north", "release A T1 --why 'by the proposal'"),
        shows=(
            ("bills --site north --month 2026-03", "exchange 10 kWh by .*: meter reset"),
            ("adjust propose --site north", r"\A\Z"),
        ),
    ),
    Case(
        "a reset beside a smaller fall is proposed without it",
        8,
        "a reading of the old meter is 40 Wh too little, and it was read again later",
        RESET.replace(
            "U T1 1 10:15 10000", "U T1 1 10:10 9040\nU T1 2 10:15 9000\nU T1 3 10:20 10000"
        )
        .replace("U T1 2 10:30", "U T1 4 10:30")
        .replace("E T1 3 10:45", "E T1 5 10:45"),
        {"A/T1": 5000 + 4995},
        found={
            "A/T1": {
                "register reset or exchanged": "10.000 kWh lost",
                "register falls": "0.040 kWh",
            }
        },
        remedy=("sh: adjust propose --site north", "release A T1 --why 'by the proposal'"),
    ),
    Case(
        "several resets are proposed each",
        8,
        "the meter began anew twice: at 10 kWh, and at 4",
        "S T1 0 10:00 5000\nU T1 1 10:15 10000\nU T1 2 10:30 0\nU T1 3 10:45 4000\nU T1 4 11:00 0\nE T1 5 11:15 3000",
        {"A/T1": 5000 + 4000 + 3000},
        found={"A/T1": {"register reset or exchanged": "14.000 kWh lost"}},
        remedy=("sh: adjust propose --site north", "release A T1 --why 'by the proposal'"),
        shows=(("adjust propose --site north", r"\A\Z"),),
    ),
    Case(
        "a reset after which the register passes the old one",
        8,
        "5.9 kWh, then 0.1, and 30 kWh in the end",
        "S T1 0 10:00 5000\nU T1 1 10:15 5900\nU T1 2 10:20 100\nU T1 3 10:40 4000\nU T1 4 10:45 5500\n"
        "U T1 5 11:00 12000\nE T1 6 12:00 30000",
        {"A/T1": 900 + 29_900},
        found={"A/T1": {"register reset or exchanged": "5.800 kWh lost"}},
        remedy=("sh: adjust propose --site north", "release A T1 --why 'by the proposal'"),
    ),
    Case(
        "a reading of 0 in the middle is no reset",
        8,
        "the meter answered nothing once",
        "S T1 0 10:00 5000\nU T1 1 10:15 10000\nU T1 2 10:30 0\nU T1 3 10:45 12000\nE T1 4 11:00 13000",
        {"A/T1": 8000},
        found={"A/T1": {"register falls": "10.000 kWh"}},
        remedy=("operate void A T1 2 --why 'no answer of the meter'",),
        shows=(("adjust propose --site north", r"\A\Z"),),
    ),
    Case(
        "a register rolls over",
        8,
        "a meter of 99,999 kWh begins again at 0",
        "S T1 0 10:00 99995000\nU T1 1 10:15 99999000\nU T1 2 10:30 3000\nE T1 3 10:45 6000",
        {"A/T1": 11_000},
        found={"A/T1": {"register reset or exchanged": ""}},
        remedy=(
            "adjust exchange A 1 --at 2026-03-01T10:20:00Z --old-end 100000 --new-begin 0 --why 'rolled over'",
        ),
    ),
    Case(
        "a session is closed by the next one's register",
        8,
        "a station was cut off while it charged",
        "S T1 0 10:00 1000\nU T1 1 10:30 9000\nS T2 0 12:00 13000\nE T2 1 12:30 15000",
        {"A/T1": 12_000, "A/T2": 2000},
        found={"A/T1": {"no end, and a later session began": "t2 began"}},
        fine=("register rose between sessions",),
        remedy=("adjust estimate A T1 --register next --why 'cut off'",),
    ),
    Case(
        "a session is closed by a register that somebody read",
        8,
        "a station was cut off, and no session follows",
        "S T1 0 10:00 1000\nU T1 1 10:30 9000",
        {"A/T1": 12_000},
        is_advised=False,
        remedy=("adjust estimate A T1 --register 13 --why 'read at the meter'",),
    ),
    Case(
        "a credit for a locked cable",
        8,
        "the driver could not leave for an hour, and pays 1.5 kWh less",
        SOUND,
        {"A/T1": 700},
        after={"A/T1": 200},
        is_advised=False,
        remedy=("adjust credit A T1 --kwh -0.5 --why 'cable locked'",),
        shows=(("bills --site north --month 2026-03", "credit -0.5 kWh by .*: cable locked"),),
    ),
    Case(
        "an adjustment is taken back by its opposite",
        8,
        "the wrong session was credited",
        SOUND,
        {"A/T1": 700},
        is_advised=False,
        remedy=(
            "adjust credit A T1 --kwh -0.5 --why oops",
            "adjust credit A T1 --kwh 0.5 --why back",
        ),
    ),
    Case(
        "a meter is exchanged between sessions",
        8,
        "nothing is wrong",
        "S T1 0 10:00 5000\nE T1 1 10:30 9000\nS T2 0 12:00 0\nE T2 1 12:30 2000",
        {"A/T1": 4000, "A/T2": 2000},
    ),
    # In bulk.
    Case(
        "sessions that stay incomplete are settled by rule",
        9,
        "an end never came, and the car was gone",
        "S T1 0 10:00 1000\nU T1 1 10:30 9000",
        {"A/T1": 8000},
        is_advised=False,
        remedy=(
            "settle-by-rule --site north --days 30 --why 'clearing period'",
            "close-day --site north --day 2026-03-31",
        ),
        shows=(
            ("bills --site north --month 2026-03", ",settled,.*,rule,"),
            ("settle-by-rule --site north --listed", "^A t1: .*clearing period"),
        ),
    ),
    Case(
        "a settling by rule is looked at first",
        9,
        "the same",
        "S T1 0 10:00 1000\nU T1 1 10:30 9000",
        {"A/T1": 8000},
        is_advised=False,
        remedy=("settle-by-rule --site north --days 30 --why look --preview",),
        shows=(
            (
                "settle-by-rule --site north --days 30 --why look --preview",
                "1 sessions would be settled by rule",
            ),
        ),
    ),
    Case(
        "what comes after a settling by rule is a correction",
        9,
        "the end comes a month late",
        "S T1 0 10:00 1000\nU T1 1 10:30 9000",
        {"A/T1": 9000},
        is_advised=False,
        log="E T1 2 11:00 received=31T10:00 10000",
        remedy=(
            "settle-by-rule --site north --days 30 --why clearing",
            "close-day --site north --day 2026-03-31",
            "report {dir}/log --out {dir}/out",
            "close-day --site north --day 2026-03-31",
        ),
        shows=(("corrections --site north --since 2026-03-01", "A,t1,"),),
    ),
    # Money knows doubt.
    Case(
        "a negative session is held",
        10,
        "the register ran backwards",
        "S T1 0 10:00 9000\nE T1 1 10:30 1000",
        {"A/T1": 700},
        found={"A/T1": {"register reset or exchanged": ""}},
        remedy=(
            "adjust credit A T1 --kwh 8.7 --why 'by the main meter'",
            "release A T1 --why 'by the main meter'",
        ),
        shows=(("bills --site north --month 2026-03", "released: .*by the main meter"),),
    ),
    Case(
        "an impossible session is held until it is released",
        10,
        "a bus with 500 kW",
        SOUND.replace("1700", "101700"),
        {"A/T1": 100_700},
        found=POWER,
        remedy=("release A T1 --why 'a bus'",),
        shows=(("release --site north", r"\A\Z"),),
    ),
    Case(
        "a released session is held again when its energy changes",
        10,
        "the end was wrong after all",
        WRONG,
        {"A/T1": 700},
        found=POWER,
        remedy=(
            "release A T1 --why 'looks right'",
            "operate correct A T1 2 0 --kwh 500 --why 'read wrong'",
        ),
        after={"A/T1": 499_000},
        shows=(("release --site north", "^A t1 power"),),
    ),
    Case(
        "periods of a session with a wrong number are not measured",
        10,
        "the same",
        WRONG,
        {"A/T1": 700},
        found=POWER,
        periods={"10:00": 300, "10:15": 400},
        remedy=("operate correct A T1 2 0 --kwh 1.7 --why 'read at the meter'",),
    ),
    Case(
        "settled figures carry findings and holds",
        10,
        "a reading of a megawatt-hour too much in a closed month",
        WRONG,
        {"A/T1": 700},
        found=POWER,
        remedy=(
            "close-day --site north --day 2026-03-31",
            "operate correct A T1 2 0 --kwh 1.7 --why meter",
            "close-day --site north --day 2026-03-31",
        ),
        shows=(("bills --site north --month 2026-03", ",corrected,"),),
    ),
    Case(
        "a bill says what is measured",
        10,
        "one reading in all",
        "S T1 0 10:00 1000\nE T1 1 10:30",
        {"A/T1": 700},
        found={"A/T1": {"one reading only": ""}},
        remedy=("adjust estimate A T1 --register 1.7 --why 'read at the meter'",),
        shows=(
            ("bills --site north --month 2026-03", "energy_measured"),
            ("bills --site north --month 2026-03", ",no,.*estimate 0.7 kWh"),
        ),
    ),
    # The settlement file.
    Case(
        "a settlement file has each period of each metering point",
        11,
        "a month with one session",
        SOUND,
        {"A/T1": 700},
        is_advised=False,
        files={"p.csv": "code,station,evse\nDE1,,\n"},
        remedy=("close-day --site north --day 2026-03-31",),
        shows=(
            (
                "settlement --site north --month 2026-03 --points {dir}/p.csv",
                r"DE1,2026-03-01T10:00:00Z,.*,0\.300,0\.000,measured",
            ),
            (
                "settlement --site north --month 2026-03 --points {dir}/p.csv",
                r"DE1,2026-03-01T10:15:00Z,.*,0\.400,0\.000,measured",
            ),
        ),
    ),
    Case(
        "a settlement file for a spreadsheet",
        11,
        "the same with a decimal comma",
        SOUND,
        {"A/T1": 700},
        is_advised=False,
        files={"p.csv": "code,station,evse\nDE1,,\n"},
        remedy=("close-day --site north --day 2026-03-31",),
        shows=(
            (
                "settlement --site north --month 2026-03 --points {dir}/p.csv --csv semicolon",
                r"DE1;2026-03-01T10:00:00Z;.*;0,300;0,000;measured",
            ),
        ),
    ),
    Case(
        "roundings of a settlement file add up",
        11,
        "three periods of 0.4 Wh are 0, 1 and 0 Wh",
        "S T1 0 10:00 1000\nU T1 1 10:15 1000.4\nU T1 2 10:30 1000.8\nE T1 3 10:45 1001.2",
        {"A/T1": 1.2},
        is_advised=False,
        files={"p.csv": "code,station,evse\nDE1,,\n"},
        remedy=("close-day --site north --day 2026-03-31",),
        shows=(
            (
                "settlement --site north --month 2026-03 --points {dir}/p.csv",
                r"10:15:00Z,.*,0\.001,0\.000,measured\nDE1,2026-03-01T10:30:00Z,.*,0\.000,",
            ),
        ),
    ),
    Case(
        "a substitute is named",
        11,
        "a session without a reading at its end",
        "S T1 0 10:00 1000\nE T1 1 10:30",
        {"A/T1": 700},
        found={"A/T1": {"one reading only": ""}},
        files={"p.csv": "code,station,evse\nDE1,,\n"},
        remedy=(
            "adjust estimate A T1 --register 1.7 --why meter",
            "close-day --site north --day 2026-03-31",
        ),
        shows=(
            (
                "settlement --site north --month 2026-03 --points {dir}/p.csv",
                r"0\.700,0\.000,substitute",
            ),
        ),
    ),
    Case(
        "a wrong session makes substitutes",
        11,
        "a reading of a megawatt-hour too much",
        WRONG,
        {"A/T1": 700},
        found=POWER,
        files={"p.csv": "code,station,evse\nDE1,,\n"},
        remedy=(
            "operate correct A T1 2 0 --kwh 1.7 --why meter",
            "close-day --site north --day 2026-03-31",
        ),
        shows=(
            (
                "settlement --site north --month 2026-03 --points {dir}/p.csv",
                r"0\.400,0\.000,measured",
            ),
        ),
    ),
    Case(
        "import and export are apart",
        11,
        "a car takes 0.7 and feeds back 0.2 kWh",
        SOUND + "S T2 0 12:00 measurand=Energy.Active.Export.Register 100\n"
        "E T2 1 12:15 measurand=Energy.Active.Export.Register 300",
        {"A/T1": 700, "A/T2": 0},
        is_advised=False,
        files={"p.csv": "code,station,evse\nDE1,,\n"},
        remedy=("close-day --site north --day 2026-03-31",),
        shows=(
            (
                "settlement --site north --month 2026-03 --points {dir}/p.csv",
                r"12:00:00Z,.*,0\.000,0\.200,measured",
            ),
        ),
    ),
    # What lacks.
    Case(
        "a silent session is in the list of what lacks",
        12,
        "an end never came",
        "S T1 0 10:00 1000\nU T1 1 10:30 9000",
        {"A/T1": 8000},
        is_advised=False,
        remedy=("lacking --hours 24",),
        status=(1,),
        shows=(("lacking --hours 24", "north,A,T1,no end yet,0,,2026-03-01T10:30:01Z"),),
    ),
    Case(
        "a running session is not",
        12,
        "it goes on",
        "S T1 0 10:00 1000\nU T1 1 10:30 9000",
        {"A/T1": 8000},
        is_advised=False,
        remedy=("lacking --hours 36500",),
    ),
    Case(
        "a complete one is not",
        12,
        "all came",
        SOUND,
        {"A/T1": 700},
        is_advised=False,
        remedy=("lacking --hours 24",),
    ),
    Case(
        "what lacks is named with its gaps",
        12,
        "two messages were lost",
        "S T1 0 10:00 1000\nU T1 1 10:15 1300\nE T1 4 10:30 1700",
        {"A/T1": 700},
        is_advised=False,
        remedy=("lacking --hours 24",),
        status=(1,),
        shows=(("lacking --hours 24", "numbers missing,2,2..3"),),
    ),
]
