"""A network that can be cut: passes connections of a port on to another one, in a thread of its own."""

import asyncio
import threading

from tests.cluster import find_port


class Proxy:
    """Passes connections on. `cut` drops nothing but hands nothing on, as a network does that is gone; `mend` goes
    on."""

    def __init__(self, target: int) -> None:
        self.target, self.port = target, find_port()
        self.loop = asyncio.new_event_loop()
        self.is_open: asyncio.Event
        self.writers: set[asyncio.StreamWriter] = set()
        self.ready = threading.Event()
        self.thread = threading.Thread(target=self.serve, daemon=True)
        self.thread.start()
        self.ready.wait()

    def serve(self) -> None:
        """The thread."""
        asyncio.set_event_loop(self.loop)
        self.loop.run_until_complete(self.listen())
        self.loop.run_forever()

    async def listen(self) -> None:
        """Takes connections."""
        self.is_open = asyncio.Event()
        self.is_open.set()
        await asyncio.start_server(self.connect, "127.0.0.1", self.port)
        self.ready.set()

    async def connect(self, reader: asyncio.StreamReader, writer: asyncio.StreamWriter) -> None:
        """Joins a connection with one to the target."""
        await self.is_open.wait()
        try:
            other_reader, other_writer = await asyncio.open_connection("127.0.0.1", self.target)
        except OSError:
            writer.close()
            return
        self.writers |= {writer, other_writer}
        await asyncio.gather(self.pass_on(reader, other_writer), self.pass_on(other_reader, writer))
        self.writers -= {writer, other_writer}

    async def pass_on(self, reader: asyncio.StreamReader, writer: asyncio.StreamWriter) -> None:
        """Passes one direction on."""
        try:
            while data := await reader.read(1 << 16):
                await self.is_open.wait()
                writer.write(data)
                await writer.drain()
        except OSError:
            pass
        finally:
            writer.close()

    def cut(self) -> None:
        """Passes nothing on."""
        self.loop.call_soon_threadsafe(self.is_open.clear)

    def mend(self, is_reset: bool = True) -> None:
        """Goes on; `is_reset`: connections that there were are gone."""

        def go_on() -> None:
            for writer in list(self.writers) if is_reset else ():
                writer.transport.abort()
            self.is_open.set()

        self.loop.call_soon_threadsafe(go_on)

    def close(self) -> None:
        """Ends it."""
        self.loop.call_soon_threadsafe(self.loop.stop)
        self.thread.join(5)
