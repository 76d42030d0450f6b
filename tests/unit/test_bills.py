"""What a bill needs of a session: its id as sent, its token, and its signed values."""

import base64
import hashlib
from pathlib import Path
from typing import Any
from xml.etree import ElementTree

import pytest

from ocpp_board.messages.bills import (
    HEADS,
    NOTHING,
    Details,
    Signed,
    cells_of,
    details_of,
    file_of,
    write_signed,
)
from tests.traffic.troubles import FIRST, sound

OCMF = 'OCMF|{"RD":[{"RV":1.0,"RU":"kWh"}]}|{"SD":"00"}'
KEY = base64.b64encode(b"oca:base16:asn1:3059aa").decode()


def payload(**more: Any) -> dict[str, Any]:
    one: dict[str, Any] = sound("T1", FIRST)[0].payload
    one["transactionInfo"]["remoteStartId"] = more.pop("remote", None)
    return one | more


def test_an_event_has_its_token_and_its_start() -> None:
    assert details_of(sound("T1", FIRST)[0].payload) is NOTHING
    found = details_of(payload(idToken={"idToken": "AB\x0012", "type": "ISO14443"}, remote="77"))
    assert found == Details("AB12", "ISO14443", "77")
    for odd in ({}, {"idToken": 1}, {"idToken": "x" * 256, "type": None}):
        assert details_of(payload(idToken=odd)).token == ""


@pytest.mark.parametrize(
    ("how", "token", "kind"),
    [
        ("none", "", ""),
        ("plain", "Ab12", "ISO14443"),
        ("hash", hashlib.sha256(b"ab12").hexdigest(), "ISO14443"),
    ],
)
def test_tokens_are_written_as_is_said(how: str, token: str, kind: str) -> None:
    details = [NOTHING, Details("Ab12", "ISO14443", "7"), Details("later", "eMAID", "8")]
    assert cells_of("TX", details, how) == ["TX", token, kind, "7", "", "", "", ""]
    assert cells_of("TX", [], how) == ["TX"] + [""] * 7


def test_the_first_and_the_last_signed_value_are_in_base64() -> None:
    data = base64.b64encode(OCMF.encode()).decode()
    some = [
        Details(signed=(Signed(OCMF, KEY),)),
        NOTHING,
        Details(signed=(Signed("mid"), Signed(data))),
    ]
    assert cells_of("TX", some, "none")[4:] == [data, KEY, data, KEY]
    assert len(HEADS) == len(cells_of("TX", some, "none"))


def test_a_file_has_both_values_with_their_keys(tmp_path: Path) -> None:
    data = base64.b64encode(OCMF.encode()).decode()
    some = [Details(signed=(Signed(data, KEY),)), Details(signed=(Signed(OCMF + "<&"),))]
    assert write_signed(tmp_path / "signed", "CS/01", "a.b", some)
    root = ElementTree.parse(tmp_path / "signed" / file_of("CS/01", "a.b")).getroot()
    assert [one.attrib["context"] for one in root] == ["Transaction.Begin", "Transaction.End"]
    assert [one.findtext("signedData") for one in root] == [OCMF, OCMF + "<&"]
    (form,) = {(one.attrib["format"], one.attrib["encoding"]) for one in root.iter("signedData")}
    assert form == ("OCMF", "plain")
    assert [(one.text, one.attrib["encoding"]) for one in root.iter("publicKey")] == [
        ("3059aa", "plain")
    ] * 2
    # Other signed data goes as it came, with a key of another form; a single value is one.
    assert write_signed(tmp_path, "A", "T", [Details(signed=(Signed("AAEC", "a2V5"),))])
    (value,) = ElementTree.parse(tmp_path / "A.T.xml").getroot()
    assert (value.findtext("signedData"), value.findtext("publicKey")) == ("AAEC", "a2V5")
    assert (
        not write_signed(tmp_path / "none", "A", "T", [NOTHING])
        and not (tmp_path / "none").exists()
    )


def test_names_of_files_differ_where_sessions_do() -> None:
    names = {file_of(station, tx) for station in ("a", "a.b") for tx in ("b.c", "c", "../c", "C")}
    assert len(names) == 8 and all("/" not in name and not name.startswith(".") for name in names)
