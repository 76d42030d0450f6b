"""TLS with stations (OCPP 2.0.1 Part 2, A.1.3, security profiles 2 and 3): 1.2 and 1.3, files read again by SIGHUP.

A gateway reads a station's certificate itself, or a proxy does that and names its subject in a header, with a secret
that both know. OpenSSL looks at revocation lists at each handshake. A connection that is open, and a session that is
resumed, have no handshake, so the gateway looks for their certificates itself.
"""

import asyncio
import hmac
import logging
import os
import re
import ssl
from collections.abc import Callable, Iterable
from dataclasses import dataclass, field
from pathlib import Path
from typing import Any, NamedTuple, cast

from cryptography import x509
from websockets.datastructures import Headers

from ocpp_board.errors import UsageError

log = logging.getLogger(__name__)

# Characters of the secret that a proxy and a gateway share.
SHORTEST_SECRET = 16
# A part of a subject, which ends with a comma or a plus without a backslash before it.
PART = re.compile(r"(?:[^\\,+]|\\.)+")
LIST = re.compile(rb"-----BEGIN X509 CRL-----.*?-----END X509 CRL-----", re.DOTALL)
# Of TLS 1.2: those with a key of their own for each connection, and the two with only RSA that OCPP 2.0.1 lets a
# station have and nothing else.
SUITES = "ECDHE+AESGCM:ECDHE+CHACHA20:AES128-GCM-SHA256:AES256-GCM-SHA384"


class Named(NamedTuple):
    """By what a revocation list names a certificate: its issuer as it is encoded, and its serial number."""

    issuer: bytes
    serial: int


@dataclass(frozen=True)
class Files:
    """The files of TLS, and who names certificates that it saw."""

    certificate: str | None = None
    key: str | None = None
    client_ca: str | None = None
    client_crl: str | None = None
    client_header: str | None = None
    proxy: list[str] = field(default_factory=list)

    @property
    def asks_for_certificates(self) -> bool:
        """Whether stations come with a certificate in place of a password."""
        return bool(self.client_ca or self.client_header)


def check_header(files: Files) -> None:
    """Raises UsageError where a header is named and not who may set it."""
    if not files.client_header:
        return
    if not files.proxy:
        raise UsageError("--client-header needs --proxy, which sets it")
    if len(os.environ.get("PROXY_SECRET", "")) < SHORTEST_SECRET:
        raise UsageError(
            f"--client-header needs PROXY_SECRET in the environment, of {SHORTEST_SECRET} characters or more"
        )


def read_revoked(path: str) -> frozenset[Named]:
    """The certificates that the revocation lists of a file (PEM) name. Raises OSError and ValueError."""
    text = Path(path).read_bytes()
    blocks = LIST.findall(text)
    if not blocks or text.count(b"-----BEGIN") != len(blocks):
        raise ValueError("a file of revocation lists (PEM) has these and nothing else")
    found = set[Named]()
    for one in map(x509.load_pem_x509_crl, blocks):
        issuer = one.issuer.public_bytes()
        entries = cast(Iterable[x509.RevokedCertificate], one)
        found.update(Named(issuer, entry.serial_number) for entry in entries)
    return frozenset(found)


def make_context(files: Files) -> ssl.SSLContext | None:
    """What connections begin with; nothing where TLS is not asked for. Raises UsageError where it can't be had."""
    if files.client_crl and not files.client_ca:
        raise UsageError("--client-crl needs --client-ca")
    if files.certificate is None:
        if files.key or files.client_ca:
            raise UsageError("--key and --client-ca need --certificate")
        return None
    context = ssl.SSLContext(ssl.PROTOCOL_TLS_SERVER)
    context.minimum_version = ssl.TLSVersion.TLSv1_2
    context.set_ciphers(SUITES)
    try:
        context.load_cert_chain(files.certificate, files.key, "")
        if files.client_ca:
            context.load_verify_locations(files.client_ca)
            context.verify_mode = ssl.CERT_REQUIRED
        if files.client_crl:
            context.load_verify_locations(files.client_crl)
            context.verify_flags |= ssl.VerifyFlags.VERIFY_CRL_CHECK_LEAF
    except (OSError, ValueError) as fault:
        names = (files.certificate, files.key, files.client_ca, files.client_crl)
        raise UsageError(f"{', '.join(filter(None, names))}: {fault}") from None
    return context


def load_revoked(files: Files) -> frozenset[Named]:
    """The certificates that the revocation lists name. Raises UsageError where these can't be read."""
    try:
        return read_revoked(files.client_crl) if files.client_crl else frozenset()
    except (OSError, ValueError) as fault:
        raise UsageError(f"{files.client_crl}: {fault}") from None


class Certificates:
    """What connections begin with: what the files had when they were read last."""

    def __init__(self, files: Files, after_reading: Callable[[], None]) -> None:
        """`after_reading` is called once the files were read again."""
        check_header(files)
        self.files, self.after_reading = files, after_reading
        # A server has one context for ever. To load a pair into it would leave one of another kind of key there.
        self.first = self.latest = make_context(files)
        self.revoked = load_revoked(files)
        if self.first:
            self.first.sni_callback = self.hand_on

    def hand_on(self, connection: ssl.SSLObject, _name: str, _context: ssl.SSLContext) -> None:
        """Has a connection go on with the latest context."""
        assert self.latest
        connection.context = self.latest

    def read_again(self) -> None:
        """Has new connections begin with what the files have by now; what can't be used changes nothing."""
        if self.first is None:
            return
        try:
            self.latest, self.revoked = make_context(self.files), load_revoked(self.files)
        except UsageError as fault:
            log.error("%s; the certificate stays as it was", fault)
        else:
            log.warning("%s was read again", self.files.certificate)
            self.after_reading()

    def is_revoked(self, transport: asyncio.BaseTransport) -> bool:
        """Whether a revocation list names the certificate of a connection."""
        connection = transport.get_extra_info("ssl_object") if self.revoked else None
        data = connection.getpeercert(True) if connection else None
        if data is None:
            return False
        one = x509.load_der_x509_certificate(data)
        return Named(one.issuer.public_bytes(), one.serial_number) in self.revoked

    def read_name(self, transport: asyncio.BaseTransport, headers: Headers) -> str:
        """The common name of the certificate that a station has; nothing where it has none that counts."""
        if self.files.client_ca:
            return read_common_name(transport.get_extra_info("peercert"))
        assert self.files.client_header
        values = headers.get_all(self.files.client_header)
        if values:
            # A request lives as long as its connection.
            del headers[self.files.client_header]
        secret, _, rest = values[0].partition(" ") if len(values) == 1 else ("", "", "")
        is_ours = hmac.compare_digest(secret.encode(), os.environ["PROXY_SECRET"].encode())
        verdict, _, subject = rest.partition(" ")
        peer = str((transport.get_extra_info("peername") or ("",))[0])
        if peer not in self.files.proxy or not is_ours or verdict != "SUCCESS":
            return ""
        names = [value for key, value in read_subject(subject) if key.upper() in ("CN", "2.5.4.3")]
        return names[0] if len(names) == 1 else ""


def read_common_name(certificate: Any) -> str:
    """The common name of the subject of a station's certificate, where it has exactly one; nothing else."""
    subject = certificate.get("subject", ()) if certificate else ()
    names = [str(value) for part in subject for key, value in part if key == "commonName"]
    return names[0] if len(names) == 1 else ""


def read_subject(subject: str) -> list[tuple[str, str]]:
    """The types and values of a subject as RFC 2253 writes it."""
    pairs = []
    for part in PART.findall(subject):
        key, _, value = part.partition("=")
        octets = re.sub(
            rb"\\([0-9A-Fa-f]{2}|.)", read_escape, value.encode("utf-8", "surrogateescape")
        )
        pairs.append((key.strip(), octets.decode("utf-8", "replace")))
    return pairs


def read_escape(found: "re.Match[bytes]") -> bytes:
    """What an escape means."""
    return bytes([int(found[1], 16)]) if len(found[1]) == 2 else found[1]
