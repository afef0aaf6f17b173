"""A backend whose watches send 100 events a second, and clients that measure how long each event takes to come."""
import asyncio
import json
import multiprocessing
import time

EVERY = 0.01
PAD = "x" * 900


async def send(reader, writer):
    """One watch: an event of some 1 KB with the moment at which it was sent, every hundredth of a second."""
    try:
        await reader.readuntil(b"\r\n\r\n")
        writer.write(b"HTTP/1.1 200 OK\r\nContent-Type: application/json\r\nTransfer-Encoding: chunked\r\n\r\n")
        due = time.monotonic()
        while True:
            event = json.dumps({"type": "MODIFIED", "sent": time.monotonic(), "object": {"pad": PAD}}).encode() + b"\n"
            writer.write(b"%x\r\n%s\r\n" % (len(event), event))
            await writer.drain()
            due += EVERY
            await asyncio.sleep(max(due - time.monotonic(), 0))
    except (OSError, asyncio.IncompleteReadError):
        writer.close()


def serve(port):
    async def run():
        async with await asyncio.start_server(send, "127.0.0.1", port) as server:
            await server.serve_forever()
    asyncio.run(run())


def backend(port):
    """The process of such a backend. It ends with this one."""
    child = multiprocessing.Process(target=serve, args=(port,), daemon=True)
    child.start()
    return child


async def receive(port, path, seconds, delays):
    reader, writer = await asyncio.open_connection("127.0.0.1", port)
    writer.write(f"GET {path} HTTP/1.1\r\nHost: bench\r\n\r\n".encode())
    await asyncio.wait_for(reader.readuntil(b"\r\n\r\n"), 10)
    end = time.monotonic() + seconds
    text = b""
    while time.monotonic() < end:
        # an event may stand in several chunks, and a chunk may have several events
        size = int(await asyncio.wait_for(reader.readuntil(b"\r\n"), 10), 16)
        text += (await asyncio.wait_for(reader.readexactly(size + 2), 10))[:-2]
        *lines, text = text.split(b"\n")
        delays += [time.monotonic() - json.loads(it)["sent"] for it in lines]
    writer.close()


def watch(port, path, count, seconds):
    """The delays, in seconds, of all events of so many watches at once. It raises TimeoutError where one of them is silent."""
    delays = []

    async def run():
        await asyncio.gather(*(receive(port, path, seconds, delays) for _ in range(count)))

    asyncio.run(run())
    return sorted(delays)
