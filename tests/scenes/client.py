"""A client of the program's servers that speaks WebSocket frames (RFC 6455) byte by byte."""

import socket
import struct
from typing import NamedTuple, Protocol

# Seconds that a session, and the server's end, may take.
LONGEST_WAIT = 10
# The first byte of a frame: its kind, and whether it ends its message.
TEXT, BINARY, CLOSE, PING, PONG = 0x81, 0x82, 0x88, 0x89, 0x8A
TEXT_BEGINS, GOES_ON, GOES_ON_LAST = 0x01, 0x00, 0x80
# The line of a request that offers the subprotocol beside another, and one that offers only others.
OFFER = "Sec-WebSocket-Protocol: ocpp1.6, ocpp2.0.1\r\n"
OTHER = "Sec-WebSocket-Protocol: ocpp1.6, ocpp2.0.1.1\r\n"
MASK = bytes([0x37, 0xFA, 0x21, 0x3D])


def event(number: int, kind: str, time: str, value: int) -> bytes:
    return (
        f'[2,"{number + 1}","TransactionEvent",{{"eventType":"{kind}","timestamp":"{time}",'
        f'"triggerReason":"MeterValuePeriodic","seqNo":{number},"transactionInfo":{{"transactionId":"T1"}},'
        f'"meterValue":[{{"timestamp":"{time}","sampledValue":[{{"value":{value}}}]}}]}}]'
    ).encode()


FIRST = event(0, "Started", "2026-03-01T10:00:00Z", 1000)
SECOND = event(1, "Updated", "2026-03-01T10:14:00Z", 1200)
NOT_JSON = b'[4,"-1","RpcFrameworkError","NotJson",{}]'
REPLIES = (b'[3,"1",{}]', b'[3,"2",{}]')


class Differs(Exception):
    """How a scene is not as it should be."""


class Listening(Protocol):
    """A server that listens on a port of 127.0.0.1."""

    port: int


class Frame(NamedTuple):
    first: int
    payload: bytes = b""
    is_masked: bool = True

    def bytes(self) -> bytes:
        """The frame as it is sent."""
        length, mask = len(self.payload), 0x80 if self.is_masked else 0
        if length < 126:
            head = bytes([self.first, mask | length])
        elif length < 65_536:
            head = bytes([self.first, mask | 126]) + length.to_bytes(2, "big")
        else:
            head = bytes([self.first, mask | 127]) + length.to_bytes(8, "big")
        if not self.is_masked:
            return head + self.payload
        whole = MASK * (length // 4 + 1)
        masked = int.from_bytes(self.payload, "big") ^ int.from_bytes(whole[:length], "big")
        return head + MASK + masked.to_bytes(length, "big")


def close(code: int, reason: str = "") -> Frame:
    return Frame(CLOSE, code.to_bytes(2, "big") + reason.encode())


def request(path: str, offer: str) -> bytes:
    """A client's request (RFC 6455 section 4.1) of this path, with this line."""
    return (
        f"GET {path} HTTP/1.1\r\nHost: h\r\nConnection: Upgrade\r\nUpgrade: websocket\r\n"
        f"Sec-WebSocket-Version: 13\r\nSec-WebSocket-Key: dGhlIHNhbXBsZSBub25jZQ==\r\n{offer}\r\n"
    ).encode()


def lets_in(head: bytes) -> bool:
    """Whether a request is answered by a session."""
    return head.startswith(b"HTTP/1.1 101 ")


def takes_up_subprotocol(head: bytes) -> bool:
    """Whether the answer to a request takes up the subprotocol of OCPP 2.0.1."""
    return b"sec-websocket-protocol: ocpp2.0.1" in head.lower().split(b"\r\n")


class Client:
    """A connection to a server."""

    def __init__(self, server: Listening) -> None:
        self.stream = socket.create_connection(("127.0.0.1", server.port), LONGEST_WAIT)

    def sends(self, sent: bytes) -> None:
        self.stream.sendall(sent)

    def receives(self, wanted: bytes) -> None:
        """Reads as many bytes as these, and compares them."""
        read = bytearray()
        while len(read) < len(wanted) and (part := self.stream.recv(len(wanted) - len(read))):
            read += part
        if read != wanted:
            raise Differs(f"{bytes(read)!r} came, and not {wanted!r}")

    def ends(self) -> None:
        """Sends nothing more; then nothing more has to come."""
        self.stream.shutdown(socket.SHUT_WR)
        if rest := self.stream.recv(65_536):
            raise Differs(f"{rest!r} came, and not the end")
        self.stream.close()

    def is_refused(self) -> None:
        """The server has to end it, whatever it says of a request that is none."""
        answer = bytearray()
        try:
            while part := self.stream.recv(65_536):
                answer += part
        except ConnectionError:
            pass
        if lets_in(answer):
            raise Differs(f"it is let in: {bytes(answer)!r}")
        self.stream.close()

    def fails(self) -> None:
        """Resets the connection."""
        self.stream.setsockopt(socket.SOL_SOCKET, socket.SO_LINGER, struct.pack("ii", 1, 0))
        self.stream.close()


class Station(Client):
    """A session of a station, behind its handshake."""

    def __init__(self, server: Listening, name: str) -> None:
        super().__init__(server)
        self.sends(request(f"/ocpp/{name}", OFFER))
        head = bytearray()
        while not head.endswith(b"\r\n\r\n") and (part := self.stream.recv(1)):
            head += part
        if not lets_in(head) or not takes_up_subprotocol(head):
            raise Differs(f"{name} is answered by {bytes(head)!r}")

    def reports(self, *numbers: int) -> None:
        """Sends the first (0) or the second event (1), each once the one before is answered."""
        for number in numbers:
            self.sends(Frame(TEXT, (FIRST, SECOND)[number]).bytes())
            self.receives(Frame(TEXT, REPLIES[number], False).bytes())

    def asks(self, text: bytes) -> bytes:
        """Sends a text, and returns the text of at most 125 bytes that answers it."""
        self.sends(Frame(TEXT, text).bytes())
        kind, length = self.takes(2)
        if kind != TEXT or length > 125:
            raise Differs(f"a frame {kind:#x} of {length} bytes answers {text!r}")
        return self.takes(length)

    def takes(self, count: int) -> bytes:
        """Reads so many bytes."""
        read = bytearray()
        while len(read) < count and (part := self.stream.recv(count - len(read))):
            read += part
        if len(read) < count:
            raise Differs(f"{bytes(read)!r} came, and then the end")
        return bytes(read)

    def leaves(self) -> None:
        """Closes the session; the server has to close it, too."""
        self.sends(close(1000).bytes())
        self.receives(close(1000)._replace(is_masked=False).bytes())
        self.ends()


def answered(port: int, sent: bytes) -> bytes:
    """The bytes that a browser is answered."""
    with socket.create_connection(("127.0.0.1", port), LONGEST_WAIT) as stream:
        stream.sendall(sent)
        answer = bytearray()
        while part := stream.recv(65_536):
            answer += part
    return bytes(answer)
