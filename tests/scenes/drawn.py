"""Events that are drawn by chance, but the same in each run."""

import random


def drawn_messages(station: str, count: int) -> list[bytes]:
    """Events of two transactions in any order: some come again, some with another reading."""
    draws = random.Random(station)
    return [
        drawn_event(number, draws.randrange(2), draws.randrange(64), draws.randrange(8) == 0)
        for number in range(count)
    ]


def drawn_event(number: int, transaction: int, seq_no: int, is_other: bool) -> bytes:
    kind = {0: "Started", 63: "Ended"}.get(seq_no, "Updated")
    at = f"2026-03-01T{10 + seq_no // 20}:{3 * seq_no % 60:02}:00Z"
    reading = f'{{"timestamp":"{at}","sampledValue":[{{"value":{37 * seq_no % 500 + is_other}}}]}}'
    return (
        f'[2,"{number}","TransactionEvent",{{"eventType":"{kind}","timestamp":"{at}",'
        f'"triggerReason":"MeterValuePeriodic",'
        f'"seqNo":{seq_no},"transactionInfo":{{"transactionId":"T{transaction}"}},"meterValue":[{reading}]}}]'
    ).encode()
