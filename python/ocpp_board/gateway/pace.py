"""How much of a station is read, and how much of that its site's quota allows: so much a second, with some more at
once."""

from ocpp_board.ledger.quotas import TOO_MANY_MESSAGES

# Frames of any kind and bytes a second that are read, and for how many seconds at once.
FRAMES, BYTES, BURST = 20, 65_536, 60


class Pace:
    """What a station sent lately, over all of its connections: BURST seconds' worth at once, and else so much a
    second."""

    def __init__(self) -> None:
        # Until when what was read, and what the quota allowed, would last at so much a second.
        self.read_until = self.allowed_until = 0.0

    def wait(self, size: int, now: float) -> float:
        """For how long no more of it is read, after a frame of so many bytes."""
        self.read_until = max(self.read_until, now - BURST) + max(1 / FRAMES, size / BYTES)
        return max(0.0, self.read_until - now)

    def find_quota(self, most: int, now: float) -> str:
        """The quota's name, where one more message is above so many a second; empty where it is not. 0: any number."""
        if not most:
            return ""
        until = max(self.allowed_until, now - BURST) + 1 / most
        if until > now:
            return TOO_MANY_MESSAGES
        self.allowed_until = until
        return ""

    def is_over(self, now: float) -> bool:
        """Whether nothing has to be remembered of it."""
        return max(self.read_until, self.allowed_until) <= now - BURST
