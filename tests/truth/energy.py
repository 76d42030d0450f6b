"""Cases of what a session's readings can't say, and of energy beside sessions."""

from tests.truth.case import Case

ONE = "one reading only"
ORDERS = "energy differs by order"
INTERVAL = "measurand=Energy.Active.Import.Interval"
# 22 kWh, and a clock that is set back by an hour behind the second event.
SET_BACK = """
S T1 0 10:00 1000
U T1 1 10:15 6500
U T1 2 09:30 12000
U T1 3 09:45 17500
E T1 4 10:01 23000
"""


def usual(count: int, wh: int) -> tuple[str, dict[str, float]]:
    """So many sessions of an hour with this energy, a day apart, and what each took."""
    lines, truth, register = list[str](), dict[str, float](), 1000
    for day in range(1, count + 1):
        lines.append(f"S D{day} 0 {day}T02:00 {register}")
        register += wh
        lines.append(f"E D{day} 1 {day}T03:00 {register}")
        truth[f"A/D{day}"] = wh
    return "\n".join(lines) + "\n", truth


DAYS, DAYS_TRUTH = usual(24, 10_000)

CASES = [
    Case(
        "tables and pages say whether energy is measured",
        1,
        "one reading in all",
        "",
        {"A/T1": 700},
        log="S T1 0 10:00 1000\nE T1 1 10:30",
        setup=(
            "report {dir}/log --out {dir}/out",
            "close-day --site north --day 2026-03-01",
            "report {dir}/log --out {dir}/again",
        ),
        found={"A/T1": {ONE: ""}},
        remedy=("adjust estimate A T1 --register 1.7 --why 'read at the meter'",),
        written=(
            ("out/north/transactions.csv", ",messages complete,.*,no$"),
            ("out/north/A/session-t1.html", "<p>Messages complete\\."),
            ("out/north/A/session-t1.html", "<dt>Energy measured</dt><dd>no</dd>"),
            ("out/north/A/index.html", "messages complete<br>energy measured: no<br>"),
            ("out/north/index.html", "energy measured: no"),
            ("out/north/A/2026-03-01.html", "energy measured: no"),
            ("again/north/closing-1.html", "messages complete</td>.*>no</td>"),
        ),
    ),
    Case(
        "pages of sessions that lack messages say whether energy is measured",
        1,
        "no end came",
        "S T1 0 10:00 1000\nU T1 1 10:15 1400",
        {"A/T1": 400},
        log="U T1 1 10:15 1400",
        setup=("report {dir}/log --out {dir}/out",),
        written=(
            ("out/north/lacking.html", "from its first reading on"),
            (
                "out/north/silent.html",
                "<time>2026-03-01 10:15:01</time>.*from .*10:00</time> to .*10:15</time> only",
            ),
        ),
    ),
    # 1: what no reading says.
    Case(
        "one reading in all, at the start",
        1,
        "12 kWh, of which only the register before is known",
        "S T1 0 10:00 1000\nU T1 1 10:30\nE T1 2 11:00",
        {"A/T1": 12_000},
        found={"A/T1": {ONE: "1.000 kWh"}},
        remedy=("adjust estimate A T1 --register 13 --why 'read at the meter'",),
    ),
    Case(
        "one reading in all, at the end",
        1,
        "12 kWh, of which only the register behind is known",
        "S T1 0 10:00\nE T1 1 11:00 13000",
        {"A/T1": 12_000},
        found={"A/T1": {ONE: "13.000 kWh"}},
        remedy=("adjust credit A T1 --kwh 12 --why 'by the car'",),
    ),
    Case(
        "one reading that the end lists again",
        1,
        "12 kWh; the end repeats the begin and has no reading of its own",
        "S T1 0 10:00 1000\nE T1 1 11:00 10:00=1000/B",
        {"A/T1": 12_000},
        found={"A/T1": {ONE: ""}},
        remedy=("adjust estimate A T1 --register 13 --why 'read at the meter'",),
    ),
    Case(
        "no reading in all",
        1,
        "12 kWh and no register",
        "S T1 0 10:00\nE T1 1 11:00",
        {"A/T1": 12_000},
        found={"A/T1": {"no counted reading": ""}},
        remedy=("adjust credit A T1 --kwh 12 --why 'by the car'",),
    ),
    Case(
        "no reading near the start",
        1,
        "3 of 12 kWh came before the first reading",
        "S T1 0 10:00\nU T1 1 10:20 4000\nE T1 2 11:00 13000",
        {"A/T1": 12_000},
        found={"A/T1": {"no reading at the start": "20 min after"}},
        remedy=("adjust credit A T1 --kwh 3 --why 'by the session before'",),
    ),
    Case(
        "no reading near the end",
        1,
        "4 of 12 kWh came behind the last reading",
        "S T1 0 10:00 1000\nU T1 1 10:40 9000\nE T1 2 11:00",
        {"A/T1": 12_000},
        found={"A/T1": {"no reading at the end": "20 min before"}},
        remedy=("adjust estimate A T1 --register 13 --why 'read at the meter'",),
    ),
    Case(
        "the next session says what the end lacks",
        1,
        "4 of 12 kWh came behind the last reading",
        "S T1 0 10:00 1000\nU T1 1 10:40 9000\nE T1 2 11:00\nS T2 0 12:00 13000\nE T2 1 12:30 14000",
        {"A/T1": 12_000, "A/T2": 1000},
        found={"A/T1": {"no reading at the end": ""}},
        fine=("register rose between sessions",),
        remedy=("adjust estimate A T1 --register next --why 'by the next session'",),
    ),
    Case(
        "no reading near the start and near the end",
        1,
        "6 of 12 kWh lack",
        "S T1 0 10:00\nU T1 1 10:20 4000\nU T1 2 10:40 10000\nE T1 3 11:00",
        {"A/T1": 12_000},
        found={"A/T1": {"no reading at the start": "", "no reading at the end": ""}},
        remedy=(
            "adjust estimate A T1 --register 13 --why meter",
            "adjust credit A T1 --kwh 3 --why meter",
        ),
    ),
    Case(
        "readings a few minutes beside start and end",
        1,
        "the car takes nothing in the first and last three minutes",
        "S T1 0 10:00\nU T1 1 10:03 1000\nU T1 2 10:57 13000\nE T1 3 11:00",
        {"A/T1": 12_000},
    ),
    Case(
        "the site's word for near",
        1,
        "a site whose stations read each minute: 0.3 kWh came before the first reading",
        "S T1 0 10:00\nU T1 1 10:04 1300\nE T1 2 11:00 13000",
        {"A/T1": 12_000},
        rules={"reading_within": 60},
        found={"A/T1": {"no reading at the start": ""}},
        remedy=("adjust credit A T1 --kwh 0.3 --why meter",),
    ),
    Case(
        "periods without a reading are estimated",
        1,
        "4 kWh in each quarter up to 10:30, then 2 and 2",
        "S T1 0 10:00 1000\nU T1 1 10:15 5000\nU T1 2 10:30 9000\nE T1 3 11:00",
        {"A/T1": 12_000},
        periods={"10:00": 4000, "10:15": 4000, "10:30": 2000, "10:45": 2000},
        found={"A/T1": {"no reading at the end": "30 min before"}},
        remedy=("adjust estimate A T1 --register 13 --why meter",),
    ),
    Case(
        "periods before the first reading are estimated",
        1,
        "2 kWh came before the first reading",
        "S T1 0 10:00\nU T1 1 10:30 3000\nE T1 2 11:00 7000",
        {"A/T1": 6000},
        periods={"10:00": 1000, "10:15": 1000, "10:30": 2000, "10:45": 2000},
        found={"A/T1": {"no reading at the start": ""}},
        remedy=("adjust credit A T1 --kwh 2 --why meter",),
    ),
    Case(
        "a car that is full an hour before its end",
        1,
        "12 kWh, and then nothing more; the station sends no reading",
        "S T1 0 10:00 1000\nU T1 1 10:30 13000\nE T1 2 12:00",
        {"A/T1": 12_000},
        is_alarm=True,
    ),
    Case(
        "a session that runs",
        1,
        "3 kWh so far",
        "S T1 0 10:00 1000\nU T1 1 10:15 4000",
        {"A/T1": 3000},
    ),
    Case(
        "a session of twenty seconds",
        1,
        "plugged in and out",
        "S T1 0 10:00 1000\nE T1 1 10:00:20 1000",
        {"A/T1": 0},
    ),
    Case(
        "a car that feeds back",
        1,
        "5 kWh out and nothing in",
        "S T1 0 10:00 measurand=Energy.Active.Export.Register 1000\n"
        "E T1 1 11:00 measurand=Energy.Active.Export.Register 6000",
        {"A/T1": 0},
    ),
    # 2: clocks that are set back.
    Case(
        "a clock is set back by an hour",
        2,
        "22 kWh in an hour",
        SET_BACK,
        {"A/T1": 22_000},
        found={
            "A/T1": {
                ORDERS: "22.000 kWh by sequence, \u22125.500 kWh by moment: by sequence the register never falls"
            }
        },
        fine=("clock goes back",),
        remedy=("operate order A T1 sequence --why 'clock set back'",),
    ),
    Case(
        "one transaction by sequence, and another one by moment",
        2,
        "the second one lists its readings again",
        SET_BACK
        + "S T2 0 14:00 23000\nU T2 1 14:15 24000\nE T2 2 14:30 14:00=23000 14:15=24000 14:30=25000",
        {"A/T1": 22_000, "A/T2": 2000},
        found={"A/T1": {ORDERS: ""}},
        fine=("clock goes back", "register rose between sessions"),
        remedy=("operate order A T1 sequence --why 'clock set back'",),
        shows=(
            ("verify", "(?i)equal|same|figures"),
            ("export --site north --out {dir}/x.script", r"\A\Z"),
        ),
    ),
    Case(
        "an order is taken back",
        2,
        "the operator looks at both",
        SET_BACK,
        {"A/T1": 22_000},
        found={"A/T1": {ORDERS: ""}},
        fine=("clock goes back",),
        remedy=(
            "operate order A T1 sequence --why a",
            "operate order A T1 moment --why b",
            "operate order A T1 sequence --why c",
        ),
    ),
    Case(
        "a clock is set back and the end lists the begin again",
        2,
        "16.5 kWh",
        "S T1 0 10:00 1000\nU T1 1 10:15 6500\nU T1 2 09:30 12000\nE T1 3 09:45 10:00=1000/B 17500",
        {"A/T1": 16_500},
        found={"A/T1": {ORDERS: "16.500 kWh by sequence"}},
        fine=("clock goes back",),
        remedy=("operate order A T1 sequence --why 'clock set back'",),
    ),
    Case(
        "a clock is set back a little, and the energy stays",
        2,
        "16.5 kWh; only periods are wrong",
        "S T1 0 10:00 1000\nU T1 1 10:15 6500\nU T1 2 10:05 12000\nE T1 3 10:20 17500",
        {"A/T1": 16_500},
        found={"A/T1": {"clock goes back": ""}},
    ),
    Case(
        "a clock is set forward",
        2,
        "11 kWh in half an hour; the periods are an hour late",
        "S T1 0 10:00 1000\nU T1 1 11:15 received=10:15 6500\nE T1 2 11:30 received=10:30 12000",
        {"A/T1": 11_000},
        periods={"10:00": 5500, "10:15": 5500},
        found={"A/T1": {"clock far from receipt": ""}},
    ),
    Case(
        "a clock is set back at a site by sequence",
        2,
        "22 kWh, by the order of the site",
        SET_BACK,
        {"A/T1": 22_000},
        order="sequence",
        settle="later",
        found={"A/T1": {"clock goes back": ""}},
    ),
    Case(
        "an event is late in time and its reading is not",
        2,
        "11 kWh; an Updated was stamped when it was written",
        "S T1 0 10:00 1000\nU T1 1 10:16 10:15=6500\nU T1 2 10:15:30 10:16=6800\nE T1 3 10:30 12000",
        {"A/T1": 11_000},
    ),
    # 3: readings that can't be.
    Case(
        "a reading is an hour later than its event",
        3,
        "11 kWh; the meter's clock is an hour ahead for one reading",
        "S T1 0 10:00 1000\nU T1 1 10:15 11:15=6500\nE T1 2 10:30 12000",
        {"A/T1": 11_000},
        found={
            "A/T1": {
                ORDERS: "11.000 kWh by sequence, 5.500 kWh by moment",
                "reading later than its event": "1.0 h",
            }
        },
        remedy=("operate order A T1 sequence --why 'clock of the meter'",),
    ),
    Case(
        "the last reading is an hour later than the end",
        3,
        "11 kWh; the periods are too long",
        "S T1 0 10:00 1000\nU T1 1 10:15 6500\nE T1 2 10:30 11:30=12000",
        {"A/T1": 11_000},
        periods={"10:00": 5500, "10:15": 5500},
        found={"A/T1": {"reading later than its event": "1.0 h later"}},
    ),
    Case(
        "a reading is half a minute later than its event",
        3,
        "the message was written first",
        "S T1 0 10:00 1000\nE T1 1 10:30 10:30:30=12000",
        {"A/T1": 11_000},
    ),
    Case(
        "two sessions have the same energy",
        3,
        "one car; the station reported it under two ids",
        "S T1 0 10:00 1000\nS T2 0 10:05 2000\nE T1 1 11:00 13000\nE T2 1 11:00 13000",
        {"A/T1": 12_000, "A/T2": 0},
        found={"A/T2": {"sessions overlap": "11.000 kWh also in t1"}},
        remedy=("adjust credit A T2 --kwh -11 --why 'one car'", "release A T2 --why 'one car'"),
    ),
    Case(
        "the end of a session is a minute late",
        3,
        "two cars, one behind the other",
        "S T1 0 10:00 1000\nS T2 0 11:00 13000\nE T1 1 11:01 13000\nE T2 1 12:00 15000",
        {"A/T1": 12_000, "A/T2": 2000},
    ),
    Case(
        "session meters that begin at 0 overlap",
        3,
        "two cars; the clock of the first end is late",
        "S T1 0 10:00 0\nS T2 0 11:00 0\nE T1 1 11:01 12000\nE T2 1 12:00 3000",
        {"A/T1": 12_000, "A/T2": 3000},
    ),
    Case(
        "two EVSEs with one meter",
        3,
        "15 kWh at EVSE 1 and 9 kWh at EVSE 2, and one meter for both",
        "S T1 0 10:00 1000\nS T2 0 10:10 evse=2 5000\nE T2 1 10:50 evse=2 21000\nE T1 1 11:00 25000",
        {"A/T1": 15_000, "A/T2": 9000},
        found={
            "A/T1": {"two EVSEs with one meter": "with t2"},
            "A/T2": {"two EVSEs with one meter": "with t1"},
        },
        remedy=(
            "adjust credit A T1 --kwh -9 --why 'one meter'",
            "adjust credit A T2 --kwh -7 --why 'one meter'",
        ),
    ),
    Case(
        "two EVSEs with meters of their own",
        3,
        "12 and 9 kWh",
        "S T1 0 10:00 1000\nS T2 0 10:10 evse=2 905000\nE T2 1 10:50 evse=2 914000\nE T1 1 11:00 13000",
        {"A/T1": 12_000, "A/T2": 9000},
    ),
    Case(
        "two EVSEs with session meters",
        3,
        "12 and 9 kWh; each meter begins at 0",
        "S T1 0 10:00 0\nS T2 0 10:10 evse=2 0\nE T2 1 10:50 evse=2 9000\nE T1 1 11:00 12000",
        {"A/T1": 12_000, "A/T2": 9000},
    ),
    Case(
        "an EVSE changes",
        3,
        "12 kWh at EVSE 2; the start named EVSE 1",
        "S T1 0 10:00 1000\nU T1 1 10:30 evse=2 7000\nE T1 2 11:00 evse=2 13000",
        {"A/T1": 12_000},
        found={"A/T1": {"EVSE changes": "1, then 2"}},
    ),
    Case(
        "kWh that are called Wh, by power",
        3,
        "11 kWh; values are kWh and no unit is named",
        "S T1 0 10:00 kw=11 1000\nU T1 1 10:30 kw=11 1005.5\nE T1 2 11:00 kw=11 1011",
        {"A/T1": 11_000},
        found={
            "A/T1": {
                "value in another unit": "the register rose by 0.011 kWh, and the measured power gives 11.000"
            }
        },
        remedy=(
            "adjust credit A T1 --kwh 10.989 --why 'values are kWh'",
            "release A T1 --why 'values are kWh'",
        ),
    ),
    Case(
        "Wh that are called kWh, by power",
        3,
        "11 kWh; values are Wh",
        "S T1 0 10:00 kw=11 unit=kWh 1000\nE T1 1 11:00 kw=11 unit=kWh 12000",
        {"A/T1": 11_000},
        found={"A/T1": {"value in another unit": "11,000.000 kWh"}},
        fine=("power that cannot be",),
        remedy=(
            "operate correct A T1 0 0 --kwh 1 --why 'values are Wh'",
            "operate correct A T1 1 0 --kwh 12 --why 'values are Wh'",
        ),
    ),
    Case(
        "a unit beside the value",
        3,
        "0.7 kWh; the vendor has the form of OCPP 1.6",
        "S T1 0 10:00 beside=kWh 1.0\nE T1 1 10:30 beside=kWh 1.7",
        {"A/T1": 700},
        found={"A/T1": {"value in another unit": "beside the value says kWh"}},
        remedy=(
            "operate correct A T1 0 0 --kwh 1 --why 'values are kWh'",
            "operate correct A T1 1 0 --kwh 1.7 --why 'values are kWh'",
            "release A T1 --why 'values are kWh'",
        ),
    ),
    Case(
        "a unit beside the value that says Wh",
        3,
        "0.7 kWh",
        "S T1 0 10:00 beside=Wh 1000\nE T1 1 10:30 beside=Wh 1700",
        {"A/T1": 700},
    ),
    Case(
        "power and register agree",
        3,
        "11 kWh",
        "S T1 0 10:00 kw=11 1000\nU T1 1 10:30 kw=11 6500\nE T1 2 11:00 kw=11 12000",
        {"A/T1": 11_000},
    ),
    Case(
        "a register stands still while the car charges",
        3,
        "11 kWh; the meter failed",
        "S T1 0 10:00 kw=11 1000\nU T1 1 10:30 kw=11 1000\nE T1 2 11:00 kw=11 1000",
        {"A/T1": 11_000},
        found={"A/T1": {"register stands still": "the measured power gives 11.000 kWh"}},
        remedy=("adjust credit A T1 --kwh 11 --why 'by power'",),
    ),
    Case(
        "a register stands still while nothing charges",
        3,
        "50 W of standby that the meter does not see",
        "S T1 0 10:00 kw=0.05 1000\nE T1 1 11:00 kw=0.05 1000",
        {"A/T1": 0},
    ),
    Case(
        "more than the station can give",
        3,
        "10 kWh at a station of 22 kW; a reading has 50 kWh too much",
        "S T1 0 10:00 1000\nU T1 1 10:15 56000\nE T1 2 10:30 61000",
        {"A/T1": 10_000},
        setup=("plan station A --site north --most-kw 22 --why 'its plate'",),
        found={"A/T1": {"power that cannot be": "55.000 kWh in 900 s"}},
        remedy=(
            "operate correct A T1 1 0 --kwh 6 --why meter",
            "operate correct A T1 2 0 --kwh 11 --why meter",
        ),
    ),
    Case(
        "more than the station ever gave",
        3,
        "10 kWh at a station of which nobody said what it can",
        DAYS + "S T1 0 28T10:00 241000\nU T1 1 28T10:15 296000\nE T1 2 28T10:30 301000",
        DAYS_TRUTH | {"A/T1": 10_000},
        found={"A/T1": {"more power than before": "220 kW, and at most 10 kW"}},
        remedy=(
            "operate correct A T1 1 0 --kwh 246 --why meter",
            "operate correct A T1 2 0 --kwh 251 --why meter",
        ),
    ),
    Case(
        "a stronger car than before",
        3,
        "17 kW where others took 10 kW",
        DAYS + "S T1 0 28T10:00 241000\nE T1 1 28T11:00 258000",
        DAYS_TRUTH | {"A/T1": 17_000},
    ),
    Case(
        "one reading of a megawatt-hour that goes again",
        3,
        "0.7 kWh; one reading in the middle is wrong",
        "S T1 0 10:00 1000\nU T1 1 10:15 1001300\nE T1 2 10:30 1700",
        {"A/T1": 700},
        found={
            "A/T1": {"power that cannot be": "", "register falls": "from 1,001.300 to 1.700 kWh"}
        },
        remedy=("operate void A T1 1 --why 'a wrong reading'",),
    ),
    # 4: energy beside registers.
    Case(
        "MeterValues say what a session without readings took",
        4,
        "12 kWh by the EVSE's own values",
        "M 09:50 1000\nM 10:00 1000\nS T1 0 10:00\nM 10:30 7000\nE T1 1 11:00\nM 11:00 13000",
        {"A/T1": 12_000},
        found={"A/T1": {"no counted reading": ""}},
        remedy=("adjust estimate A T1 --register meter-values --why 'by MeterValues'",),
        shows=(("bills --site north --month 2026-03", "estimate 12 kWh by"),),
    ),
    Case(
        "MeterValues say what a session with one reading took",
        4,
        "12 kWh",
        "S T1 0 10:00 1000\nE T1 1 11:00\nM 11:00 13000",
        {"A/T1": 12_000},
        found={"A/T1": {ONE: ""}},
        remedy=("adjust estimate A T1 --register meter-values --why 'by MeterValues'",),
    ),
    Case(
        "interval values say what a session took",
        4,
        "12 kWh in four intervals",
        f"S T1 0 10:00\nU T1 1 10:15 {INTERVAL} 3000\nU T1 2 10:30 {INTERVAL} 3000\nU T1 3 10:45 {INTERVAL} 3000\n"
        f"E T1 4 11:00 {INTERVAL} 3000",
        {"A/T1": 12_000},
        found={"A/T1": {"energy that does not count": "12.000 kWh by intervals"}},
        remedy=("adjust credit A T1 --kwh 12 --why 'by intervals'",),
        shows=(
            (
                "estimates --site north",
                "A,t1,2026-03-01T10:15:00Z,3.000000,estimated by meter values",
            ),
        ),
    ),
    Case(
        "periods by MeterValues",
        4,
        "1, 3, 4 and 4 kWh",
        "S T1 0 10:00\nM 10:00 1000\nM 10:15 2000\nM 10:30 5000\nM 10:45 9000\nE T1 1 11:00\nM 11:00 13000",
        {"A/T1": 12_000},
        periods={"10:00": 1000, "10:15": 3000, "10:30": 4000, "10:45": 4000},
        found={"A/T1": {"no counted reading": ""}},
        remedy=("adjust estimate A T1 --register meter-values --why 'by MeterValues'",),
        shows=(
            (
                "estimates --site north",
                "A,t1,2026-03-01T10:15:00Z,3.000000,estimated by meter values",
            ),
        ),
    ),
    Case(
        "tables and pages say what MeterValues gave",
        4,
        "the same by a log",
        "",
        {"A/T1": 12_000},
        log="S T1 0 10:00\nM 10:00 1000\nM 10:15 2000\nM 10:30 5000\nM 10:45 9000\nE T1 1 11:00\nM 11:00 13000",
        setup=("report {dir}/log --out {dir}/out",),
        found={"A/T1": {"no counted reading": ""}},
        remedy=("adjust estimate A T1 --register meter-values --why 'by MeterValues'",),
        written=(
            ("out/north/periods.csv", "^EVSE,.*10:15.*,estimated by meter values,3.000000,"),
            ("out/north/periods.csv", "^site,.*10:15.*,estimated by meter values,3.000000,"),
            ("out/north/2026-03-01.html", "estimated by meter values: 3.000 kWh"),
            ("out/north/A/2026-03-01.html", "estimated by meter values: 4.000 kWh"),
        ),
    ),
    Case(
        "a period of two sessions, one of them without MeterValues",
        4,
        "the second EVSE has none",
        "",
        {"A/T1": 12_000, "A/T2": 5_000},
        log="S T1 0 10:00\nS T2 0 10:00 evse=2\nM 10:00 1000\nE T1 1 11:00\nE T2 1 11:00 evse=2\nM 11:00 13000",
        setup=("report {dir}/log --out {dir}/out",),
        found={"A/T1": {"no counted reading": ""}, "A/T2": {"no counted reading": ""}},
        remedy=(
            "adjust estimate A T1 --register meter-values --why 'by MeterValues'",
            "adjust credit A T2 --kwh 5 --why 'by the car'",
        ),
        written=(
            (
                "out/north/periods.csv",
                "^EVSE,north,A,1,.*10:15.*,estimated by meter values,3.000000,",
            ),
            ("out/north/periods.csv", "^station,north,A,.*10:15.*,estimated,3.000000,"),
        ),
    ),
    Case(
        "MeterValues around a session's own readings",
        4,
        "1, 3, 4 and 4 kWh, of which its readings say the second",
        "M 10:00 1000\nS T1 0 10:00\nU T1 1 10:15 2000\nU T1 2 10:30 5000\nE T1 3 11:00\nM 11:00 13000",
        {"A/T1": 12_000},
        periods={"10:00": 1000, "10:15": 3000, "10:30": 4000, "10:45": 4000},
        found={"A/T1": {"no reading at the start": "15 min", "no reading at the end": "30 min"}},
        remedy=("adjust estimate A T1 --register meter-values --why 'by MeterValues'",),
        shows=(
            ("estimates --site north", "10:00:00Z,1.000000,.*\n(?!.*10:15).*10:30:00Z,4.000000,"),
        ),
    ),
    Case(
        "a session's own readings are no MeterValues",
        4,
        "its start and its end have none, and there is nothing else",
        "S T1 0 10:00\nU T1 1 10:15 2000\nU T1 2 10:30 5000\nE T1 3 11:00",
        {"A/T1": 3_000},
        found={"A/T1": {"no reading at the start": "15 min", "no reading at the end": "30 min"}},
        shows=(
            (
                "estimates --site north",
                r"\Astation,session_id,period_start,imported_kwh,figure\n\Z",
            ),
        ),
    ),
    Case(
        "MeterValues that come after the session",
        4,
        "the station sends them an hour later",
        "S T1 0 10:00\nE T1 1 11:00\nM 10:00 received=12:00 1000\nM 11:00 received=12:00 13000",
        {"A/T1": 12_000},
        found={"A/T1": {"no counted reading": ""}},
        remedy=("adjust estimate A T1 --register meter-values --why 'by MeterValues'",),
        shows=(("estimates --site north", "10:45:00Z,3.000000,estimated by meter values"),),
    ),
    Case(
        "the main meter is on a page and in a table",
        4,
        "12 kWh at the EVSE, 13 at the main meter",
        "",
        {"A/T1": 12_000},
        log="M 10:00 evse=0 100000\nS T1 0 10:00 1000\nM 10:30 evse=0 106500\nM 11:00 evse=0 113000\n"
        "E T1 1 11:00 13000",
        setup=("report {dir}/log --out {dir}/out",),
        written=(
            ("out/north/site_meter.csv", "^2026-03-01T10:15:00Z,3.250000,3.000000,0.250000"),
            ("out/north/site-meter.html", "10:15.*>3.250</td>.*>3.000</td>.*>0.250</td>"),
        ),
    ),
    Case(
        "the main meter is no EVSE",
        4,
        "the site takes 20 kWh an hour for all that is there",
        "M 10:00 evse=0 1000\nM 11:00 evse=0 21000\nM 12:00 evse=0 41000",
        {},
    ),
    Case(
        "the main meter against the sum of EVSEs",
        4,
        "12 kWh at the EVSE, 13 at the main meter",
        "M 10:00 evse=0 100000\nS T1 0 10:00 1000\nM 10:30 evse=0 106500\nM 11:00 evse=0 113000\nE T1 1 11:00 13000",
        {"A/T1": 12_000},
        shows=(
            ("site-meter --site north --month 2026-03", "10:00:00Z,3.250000,3.000000,0.250000"),
        ),
    ),
    Case(
        "energy outside sessions",
        4,
        "8 kWh that no session has: its messages were lost",
        "S T1 0 10:00 1000\nE T1 1 10:30 3000\nM 10:31 3000\nM 12:00 11000",
        {"A/T1": 2000},
        found={"A": {"energy outside sessions": "8.000 kWh at EVSE 1"}},
    ),
    Case(
        "a cabinet in standby outside sessions",
        4,
        "80 Wh a day",
        "M 1T10:00 3000\nM 2T10:00 3080\nM 3T10:00 3160",
        {},
    ),
]
