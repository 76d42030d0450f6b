"""Who may use `web`: operators by a password or by the header of a proxy, and programs by a token.

The store has hashes only: of passwords by scrypt, and of what is chosen at random (tokens, and what browsers have who
signed in) by SHA-256. Any number of processes agree on them.
"""

import hashlib
import hmac
import re
import secrets
import threading
import time
from collections.abc import Collection, Sequence
from datetime import datetime, timedelta, timezone
from typing import NamedTuple

from ocpp_board.errors import InputError
from ocpp_board.store.database import Database, Row
from ocpp_board.store.plan import Author, note_change

# A reader sees pages; an operator voids, restores and erases, too.
READER, OPERATOR = ROLES = ("reader", "operator")
NAME = re.compile(r"[a-z0-9][a-z0-9._@+-]{0,63}")
# Characters of a password. People choose it, so a guess has to be dear: what scrypt costs (RFC 7914), and its bytes.
SHORTEST, LONGEST = 12, 200
COST, BLOCK, LANES, SALT, HASH, MEMORY = 32_768, 8, 2, 16, 32, 1 << 27
# Bytes of a secret that is chosen at random, and how long a browser is signed in.
SECRET = 32
SECRET_TEXT = re.compile(r"[A-Za-z0-9_-]{43}")
SIGNED_IN = timedelta(hours=12)
# Seconds for which a form is good.
HOLDS = 600
# Wrong passwords of one address or name that are free, and the seconds that each one more costs, up to so many.
FREE, PAUSE, SLOWEST = 5, 2.0, 60.0
# Hashes that are made at once, and names and addresses that are kept.
AT_ONCE, KEPT = 2, 10_000


class Operator(NamedTuple):
    """Who asks: the name, what it may do, and its sites; None means all sites."""

    name: str
    role: str
    sites: frozenset[str] | None = None

    def may(self, role: str) -> bool:
        """Whether it may do what a role does."""
        return ROLES.index(self.role) >= ROLES.index(role)

    def sees(self, site: str) -> bool:
        """Whether a site is one of its."""
        return self.sites is None or site in self.sites


class SignInFault(Exception):
    """Nobody is let in. `seconds`: how long to wait before the next try."""

    def __init__(self, text: str, seconds: float = 0) -> None:
        super().__init__(text)
        self.seconds = seconds


class FormFault(Exception):
    """A form was not made by these pages for who sends it and for its words, or too long ago."""


# Hashes ---------------------------------------------------------------------------------------------------------------


def hash_password(password: str, salt: bytes | None = None) -> str:
    """The hash of a password as the store keeps it."""
    salt = secrets.token_bytes(SALT) if salt is None else salt
    found = hashlib.scrypt(
        password.encode(), salt=salt, n=COST, r=BLOCK, p=LANES, dklen=HASH, maxmem=MEMORY
    )
    return f"{salt.hex()}${found.hex()}"


def match_password(password: str, kept: str) -> bool:
    """Whether a password has this hash. One that the store has no hash of takes as long."""
    salt = bytes.fromhex(kept.partition("$")[0]) if kept else bytes(SALT)
    return hmac.compare_digest(hash_password(password, salt), kept)


def hash_secret(secret: str) -> str:
    """The hash of what was chosen at random."""
    return hashlib.sha256(secret.encode()).hexdigest()


def find_mistake(password: str) -> str:
    """Why a text can't be an operator's password; nothing where it can."""
    if not SHORTEST <= len(password) <= LONGEST:
        return (
            f"a password has {SHORTEST} to {LONGEST} characters, and this one has {len(password)}"
        )
    return "" if password.isprintable() else "a password has no control characters"


# Operators ------------------------------------------------------------------------------------------------------------


def make_operator(row: Row) -> Operator:
    """Makes an operator of a row with a name, a role and sites."""
    return Operator(row.operator, row.role, frozenset(row.sites.split()) or None)


def now() -> datetime:
    """This moment."""
    return datetime.now(timezone.utc)


def find_operator(store: Database, name: str) -> Row | None:
    """The row of an operator who may sign in; None where there is none."""
    return store.fetch_one(
        "select operator, password_hash, role, sites from operator where operator = :name "
        "and (until is null or until > :now)",
        name=name,
        now=now(),
    )


def write_operator(
    store: Database, name: str, role: str, sites: Collection[str], author: Author
) -> None:
    """Adds an operator, or changes the role and the sites of one. Raises InputError."""
    if not NAME.fullmatch(name):
        raise InputError(
            f"{name!r} is no name of an operator; names have 1 to 64 of a-z 0-9 . _ @ + -"
        )
    if role not in ROLES:
        raise InputError(f"{role!r} is no role; take one of {', '.join(ROLES)}")
    for site in sites:
        if store.fetch_one("select site from site where site = :site", site=site) is None:
            raise InputError(f"the store has no site {site!r}; add it by plan, or name another one")
    with store.transaction():
        before = find_operator(store, name)
        store.execute(
            "insert into operator (operator, role, sites, since) values (:name, :role, :sites, :now) "
            "on conflict (operator) do update set role = excluded.role, sites = excluded.sites, until = null",
            name=name,
            role=role,
            sites=" ".join(sorted(sites)),
            now=now(),
        )
        had = f"{before.role} {before.sites}" if before else ""
        note_change(store, author, "operator", name, had, f"{role} {' '.join(sorted(sites))}")


def set_password(store: Database, name: str, password: str, author: Author) -> None:
    """Sets an operator's password, and ends where it is signed in. Raises InputError."""
    if mistake := find_mistake(password):
        raise InputError(mistake)
    with store.transaction():
        changed = store.execute(
            "update operator set password_hash = :hash where operator = :name",
            hash=hash_password(password),
            name=name,
        )
        if not changed:
            raise InputError(f"there is no operator {name!r}; add one by `operator add`")
        store.execute("delete from sign_in where operator = :name", name=name)
        note_change(store, author, "operator", name, "a password", "another password")


def end_operator(store: Database, name: str, author: Author) -> None:
    """Lets an operator in no longer, nor its tokens. Raises InputError."""
    with store.transaction():
        changed = store.execute(
            "update operator set until = :now, password_hash = '' where operator = :name",
            now=now(),
            name=name,
        )
        if not changed:
            raise InputError(f"there is no operator {name!r}; `operator list` names all")
        store.execute("delete from sign_in where operator = :name", name=name)
        store.execute(
            "update token set until = :now where operator = :name and until is null",
            now=now(),
            name=name,
        )
        note_change(store, author, "operator", name, "may sign in", "may not sign in")


def add_token(
    store: Database, operator: str, note: str, role: str, sites: Collection[str], author: Author
) -> str:
    """Adds a token for a program, and gives it: the store has its hash only. Raises InputError."""
    if find_operator(store, operator) is None:
        raise InputError(f"there is no operator {operator!r}; add one by `operator add`")
    secret = secrets.token_urlsafe(SECRET)
    with store.transaction():
        store.execute(
            "insert into token (token_hash, operator, role, sites, note, since) "
            "values (:hash, :operator, :role, :sites, :note, :now)",
            hash=hash_secret(secret),
            operator=operator,
            role=role,
            sites=" ".join(sorted(sites)),
            note=note,
            now=now(),
        )
        note_change(
            store, author, "token", operator, "", f"{note} {role} {' '.join(sorted(sites))}"
        )
    return secret


def end_token(store: Database, operator: str, note: str, author: Author) -> None:
    """Ends the tokens of an operator with this note. Raises InputError."""
    with store.transaction():
        changed = store.execute(
            "update token set until = :now where operator = :operator and note = :note and until is null",
            now=now(),
            operator=operator,
            note=note,
        )
        if not changed:
            raise InputError(f"{operator} has no token {note!r}; `operator list` names all")
        note_change(store, author, "token", operator, note, "ended")


# Signing in -----------------------------------------------------------------------------------------------------------


class Tries:
    """Wrong passwords by address and by name, and how long the next try waits."""

    def __init__(self) -> None:
        # Until when one waits, and how many failures there were.
        self.failed: dict[str, tuple[float, int]] = {}
        self.lock = threading.Lock()

    def check(self, keys: Sequence[str]) -> None:
        """Raises SignInFault where one of these has to wait."""
        due = max((self.failed.get(key, (0.0, 0))[0] for key in keys), default=0.0)
        if (pause := due - time.monotonic()) > 0:
            raise SignInFault("Too many wrong passwords came; try again soon.", pause)

    def fail(self, keys: Sequence[str]) -> None:
        """Counts a failure."""
        with self.lock:
            for key in keys:
                count = self.failed.pop(key, (0.0, 0))[1] + 1
                pause = min(PAUSE * max(0, count - FREE), SLOWEST)
                self.failed[key] = time.monotonic() + pause, count
                if len(self.failed) > KEPT:
                    del self.failed[next(iter(self.failed))]

    def forget(self, keys: Sequence[str]) -> None:
        """Forgets failures, since somebody signed in."""
        with self.lock:
            for key in keys:
                self.failed.pop(key, None)


class SignIns:
    """Judges passwords, and finds who has a secret."""

    def __init__(self) -> None:
        self.tries = Tries()
        self.places = threading.Semaphore(AT_ONCE)

    def begin(self, store: Database, name: str, password: str, address: str) -> str:
        """The secret of a browser that signs in. Raises SignInFault; an unknown name and a wrong password are answered
        alike, and after as much work."""
        keys = [f"address {address}", f"name {name} {address}"]
        self.tries.check(keys)
        row = find_operator(store, name) if NAME.fullmatch(name) else None
        with self.places:
            is_right = match_password(password[:LONGEST], row.password_hash if row else "")
        if row is None or not row.password_hash or not is_right:
            self.tries.fail(keys)
            raise SignInFault("The name or the password is wrong.")
        self.tries.forget(keys)
        secret = secrets.token_urlsafe(SECRET)
        with store.transaction():
            store.execute("delete from sign_in where until < :now", now=now())
            store.execute(
                "insert into sign_in (secret_hash, operator, since, until) values (:hash, :name, :now, :until)",
                hash=hash_secret(secret),
                name=name,
                now=now(),
                until=now() + SIGNED_IN,
            )
        return secret

    def find(self, store: Database, secret: str) -> Operator | None:
        """Who is signed in with a secret; None where nobody is."""
        if not SECRET_TEXT.fullmatch(secret):
            return None
        row = store.fetch_one(
            "select o.operator, o.role, o.sites from sign_in s join operator o on o.operator = s.operator "
            "where s.secret_hash = :hash and s.until > :now and (o.until is null or o.until > :now)",
            hash=hash_secret(secret),
            now=now(),
        )
        return make_operator(row) if row else None

    def end(self, store: Database, secret: str) -> None:
        """Ends where a browser is signed in."""
        store.execute("delete from sign_in where secret_hash = :hash", hash=hash_secret(secret))

    def find_holder(self, store: Database, secret: str) -> Operator | None:
        """Whose token a secret is; None where it is none that is good."""
        if not SECRET_TEXT.fullmatch(secret):
            return None
        row = store.fetch_one(
            "select t.operator, t.role, t.sites from token t join operator o on o.operator = t.operator "
            "where t.token_hash = :hash and (t.until is null or t.until > :now) "
            "and (o.until is null or o.until > :now)",
            hash=hash_secret(secret),
            now=now(),
        )
        return make_operator(row) if row else None


# Forms ----------------------------------------------------------------------------------------------------------------


def sign_words(secret: str, number: str, words: Sequence[str]) -> str:
    """What nobody can make who does not have the secret, of these words and this number."""
    text = "\0".join([number, *words])
    return hmac.new(secret.encode(), text.encode(), hashlib.sha256).hexdigest()


def make_form_token(secret: str, words: Sequence[str]) -> str:
    """What a form carries: until when it is good, a number, and that it is for these words."""
    number = f"{int(time.time()) + HOLDS}-{secrets.token_hex(8)}"
    return f"{number}-{sign_words(secret, number, words)}"


def check_form(secret: str, token: str, words: Sequence[str]) -> str:
    """The number of a form that these pages made for who has this secret, and for these words. Raises FormFault."""
    number, _, signed = token.rpartition("-")
    if not hmac.compare_digest(signed.encode(), sign_words(secret, number, words).encode()):
        raise FormFault("This form was not made by these pages for these words; nothing was done.")
    if int(number.partition("-")[0]) < time.time():
        raise FormFault("This form is older than ten minutes; nothing was done.")
    return number
