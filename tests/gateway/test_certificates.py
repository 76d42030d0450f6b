"""TLS with stations: versions, certificates that are read again, client certificates and revocation lists."""

import asyncio
import signal
import ssl
import subprocess
from collections.abc import Callable
from datetime import datetime, timedelta
from pathlib import Path
from typing import Any

import pytest
from cryptography import x509
from cryptography.hazmat.primitives import hashes, serialization
from cryptography.hazmat.primitives.asymmetric import ec
from cryptography.x509.oid import NameOID
from websockets.exceptions import ConnectionClosed, InvalidMessage

from ocpp_board.errors import UsageError
from ocpp_board.gateway.certificates import (
    Files,
    make_context,
    read_common_name,
    read_revoked,
    read_subject,
)
from tests.cluster import GatewayPart
from tests.gateway.client import (
    ask,
    connect_station,
    find_status,
    make_event,
    make_reply,
    wait_for_close,
)

Make = Callable[..., str]


class Authority:
    """Makes certificates, and revokes them."""

    def __init__(self, folder: Path, name: str = "an authority") -> None:
        self.folder, self.key = folder, ec.generate_private_key(ec.SECP256R1())
        self.name = x509.Name([x509.NameAttribute(NameOID.COMMON_NAME, name)])
        self.revoked: list[int] = []
        self.certificate = self.sign(self.name, self.key, True)
        self.file = folder / f"{name}.pem".replace(" ", "_")
        self.file.write_bytes(self.certificate.public_bytes(serialization.Encoding.PEM))

    def sign(
        self, name: x509.Name, key: ec.EllipticCurvePrivateKey, is_authority: bool
    ) -> x509.Certificate:
        """A certificate of a name."""
        builder = (
            x509.CertificateBuilder()
            .subject_name(name)
            .issuer_name(self.name)
            .public_key(key.public_key())
            .serial_number(x509.random_serial_number())
            .not_valid_before(datetime.now() - timedelta(days=2))
            .not_valid_after(datetime.now() + timedelta(days=2))
            .add_extension(x509.BasicConstraints(is_authority, None), True)
        )
        if not is_authority:
            names: list[x509.GeneralName] = [x509.DNSName("localhost")]
            builder = builder.add_extension(x509.SubjectAlternativeName(names), False)
        return builder.sign(self.key, hashes.SHA256())

    def make(self, name: str, *more: str) -> tuple[str, str, int]:
        """The files of a certificate and its key, and its number."""
        key: Any = ec.generate_private_key(ec.SECP256R1())
        names = [x509.NameAttribute(NameOID.COMMON_NAME, one) for one in (name, *more)]
        made = self.sign(x509.Name(names), key, False)
        front = self.folder / f"{name}-{made.serial_number % 10_000}"
        Path(f"{front}.pem").write_bytes(made.public_bytes(serialization.Encoding.PEM))
        Path(f"{front}.key").write_bytes(
            key.private_bytes(
                serialization.Encoding.PEM,
                serialization.PrivateFormat.PKCS8,
                serialization.NoEncryption(),
            )
        )
        return f"{front}.pem", f"{front}.key", made.serial_number

    def write_list(self, path: Path) -> Path:
        """The revocation list."""
        builder = (
            x509.CertificateRevocationListBuilder()
            .issuer_name(self.name)
            .last_update(datetime.now() - timedelta(days=1))
            .next_update(datetime.now() + timedelta(days=1))
        )
        for number in self.revoked:
            builder = builder.add_revoked_certificate(
                x509.RevokedCertificateBuilder()
                .serial_number(number)
                .revocation_date(datetime.now() - timedelta(days=1))
                .build()
            )
        path.write_bytes(
            builder.sign(self.key, hashes.SHA256()).public_bytes(serialization.Encoding.PEM)
        )
        return path


@pytest.fixture(name="authority")
def made_authority(tmp_path: Path) -> Authority:
    """An authority of a test's own."""
    return Authority(tmp_path)


def make_client(authority: Authority, own: tuple[str, str, int] | None = None) -> ssl.SSLContext:
    """What a station connects with."""
    context = ssl.create_default_context(cafile=str(authority.file))
    if own:
        context.load_cert_chain(own[0], own[1])
    return context


def secure(gateway: GatewayPart) -> str:
    """Where stations connect by TLS."""
    return f"wss://localhost:{gateway.port}/ocpp"


@pytest.mark.parametrize(
    ("version", "is_spoken"),
    [
        (ssl.TLSVersion.TLSv1_3, True),
        (ssl.TLSVersion.TLSv1_2, True),
        (ssl.TLSVersion.TLSv1_1, False),
    ],
)
def test_versions_of_tls(
    make_fleet: Make, authority: Authority, version: ssl.TLSVersion, is_spoken: bool
) -> None:
    """1.2 and 1.3 are spoken, with a password; older ones are not."""
    certificate, key, _ = authority.make("localhost")
    context = make_client(authority)
    context.set_ciphers("DEFAULT:@SECLEVEL=0")
    context.minimum_version = context.maximum_version = version

    async def play(url: str) -> None:
        station = await connect_station(url, "CS-0", context=context)
        assert await ask(station, make_event("t", 0)) == make_reply("t", 0)

    words = ("--certificate", certificate, "--key", key)
    with GatewayPart(make_fleet(), *words) as gateway:
        if is_spoken:
            asyncio.run(play(secure(gateway)))
        else:
            with pytest.raises((ssl.SSLError, OSError, ConnectionClosed)):
                asyncio.run(play(secure(gateway)))


def test_a_certificate_in_place_of_a_password(
    make_fleet: Make, authority: Authority, tmp_path: Path
) -> None:
    """A station comes with the certificate of its name; a revoked one, another's and none do not come in. A list that
    is read again ends connections that are open."""
    server, first, second, other = (
        authority.make(name) for name in ("localhost", "CS-0", "CS-0", "CS-1")
    )
    stranger = Authority(tmp_path, "a stranger").make("CS-0")
    authority.revoked.append(first[2])
    revoked = authority.write_list(tmp_path / "revoked.pem")

    async def try_one(url: str, own: tuple[str, str, int] | None, station: str = "CS-0") -> int:
        try:
            return await find_status(url, station, None, context=make_client(authority, own))
        except (ssl.SSLError, OSError, ConnectionClosed, InvalidMessage):
            return 0

    async def play(gateway: GatewayPart) -> None:
        url = secure(gateway)
        assert await try_one(url, second) == 101
        assert await try_one(url, other) == 403
        assert await try_one(url, other, "CS-1") == 101
        for own in (first, stranger, None):
            assert await try_one(url, own) == 0
        assert await try_one(url, authority.make("nobody"), "nobody") == 404
        station = await connect_station(url, "CS-0", None, context=make_client(authority, second))
        authority.revoked.append(second[2])
        authority.write_list(revoked)
        gateway.process.send_signal(signal.SIGHUP)
        assert await wait_for_close(station, 10) == 1008
        assert await try_one(url, second) == 0

    words = ("--certificate", server[0], "--key", server[1], "--client-ca", authority.file)
    with GatewayPart(make_fleet(), *words, "--client-crl", revoked) as gateway:
        asyncio.run(play(gateway))


def test_a_certificate_is_read_again(
    make_fleet: Make, authority: Authority, tmp_path: Path
) -> None:
    """After SIGHUP new connections begin with the new certificate; a broken file changes nothing."""
    certificate, key, _ = authority.make("localhost")
    later = Authority(tmp_path, "a later authority")
    new = later.make("localhost")

    def renew(one: tuple[str, str, int]) -> None:
        Path(certificate).write_bytes(Path(one[0]).read_bytes())
        Path(key).write_bytes(Path(one[1]).read_bytes())

    async def play(gateway: GatewayPart) -> None:
        url = secure(gateway)
        station = await connect_station(url, "CS-0", context=make_client(authority))
        Path(certificate).write_text("no certificate")
        gateway.process.send_signal(signal.SIGHUP)
        await asyncio.sleep(0.5)
        assert await find_status(url, "CS-1", context=make_client(authority)) == 101
        renew(new)
        gateway.process.send_signal(signal.SIGHUP)
        await asyncio.sleep(0.5)
        assert await find_status(url, "CS-1", context=make_client(later)) == 101
        assert await ask(station, make_event("t", 0)) == make_reply("t", 0)

    with GatewayPart(make_fleet(), "--certificate", certificate, "--key", key) as gateway:
        asyncio.run(play(gateway))


@pytest.mark.parametrize(
    ("header", "status"),
    [
        ("{secret} SUCCESS CN=CS-0,O=Depot", 101),
        ("{secret} SUCCESS O=Depot\\, Inc.,CN=CS-0", 101),
        ("{secret} SUCCESS CN=CS-1", 403),
        ("{secret} SUCCESS CN=CS-0+CN=CS-1", 403),
        ("{secret} FAILED CN=CS-0", 403),
        ("another-secret-of-16 SUCCESS CN=CS-0", 403),
        ("", 403),
    ],
)
def test_a_proxy_names_the_certificate(make_fleet: Make, header: str, status: int) -> None:
    """Only the proxy that knows the secret is believed."""
    secret = "0123456789abcdef"
    words = ("--client-header", "X-Client", "--proxy", "127.0.0.1")
    headers = {"X-Client": header.format(secret=secret)} if header else {}
    with GatewayPart(make_fleet(), *words, PROXY_SECRET=secret) as gateway:
        assert asyncio.run(find_status(gateway.url, "CS-0", None, headers=headers)) == status


@pytest.mark.parametrize(
    "files",
    [
        Files(key="a"),
        Files(client_ca="a"),
        Files(client_crl="a"),
        Files(certificate="/nothing"),
    ],
)
def test_words_that_do_not_go_together(files: Files) -> None:
    """They are refused before anything begins."""
    with pytest.raises(UsageError):
        make_context(files)


def test_a_file_of_lists_has_nothing_else(authority: Authority, tmp_path: Path) -> None:
    """Two lists are read; a certificate among them, and text that is no list, are refused."""
    authority.revoked = [7, 8]
    path = authority.write_list(tmp_path / "list.pem")
    other = Authority(tmp_path, "another")
    other.revoked = [7]
    whole = path.read_bytes() + other.write_list(tmp_path / "other.pem").read_bytes()
    path.write_bytes(whole)
    assert sorted(one.serial for one in read_revoked(str(path))) == [7, 7, 8]
    broken = b"-----BEGIN X509 CRL-----\nAAAA\n-----END X509 CRL-----\n"
    for text in (b"", whole + authority.file.read_bytes(), broken):
        path.write_bytes(text)
        with pytest.raises(ValueError):
            read_revoked(str(path))


def test_names_of_subjects() -> None:
    """One common name counts, and escapes are read."""
    subject = ((("commonName", "CS-0"),), (("organizationName", "a"),))
    assert read_common_name({"subject": subject}) == "CS-0"
    assert read_common_name({"subject": (*subject, (("commonName", "CS-1"),))}) == ""
    assert read_common_name(None) == ""
    assert read_subject("CN=a\\,b,O=\\C3\\A9+OU=x") == [("CN", "a,b"), ("O", "é"), ("OU", "x")]


def test_certificates_by_openssl(tmp_path: Path) -> None:
    """A list that openssl made is read as one of ours."""
    made = subprocess.run(["openssl", "version"], capture_output=True, check=False)
    if made.returncode:
        pytest.skip("no openssl")
    folder = tmp_path / "ca"
    folder.mkdir()
    (folder / "index.txt").write_text("R\t280101000000Z\t260101000000Z\t1F\tunknown\t/CN=CS-0\n")
    (folder / "crlnumber").write_text("01\n")
    (folder / "a.cnf").write_text(
        f"[ca]\ndefault_ca=a\n[a]\ndatabase={folder}/index.txt\ncrlnumber={folder}/crlnumber\n"
        "default_md=sha256\ndefault_crl_days=3\n"
    )
    for command in (
        "req -x509 -newkey rsa:2048 -nodes -keyout ca.key -out ca.pem -subj /CN=ca -days 3",
        "ca -gencrl -config a.cnf -keyfile ca.key -cert ca.pem -out list.pem",
    ):
        subprocess.run(["openssl", *command.split()], cwd=folder, check=True, capture_output=True)
    assert [one.serial for one in read_revoked(str(folder / "list.pem"))] == [0x1F]
