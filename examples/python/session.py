"""A session with a real host, by asyncio: session.py HOST:PORT KEY.. presses the keys, as `type C1`, `tab` or `enter`, once the host's screen takes input, and
prints the screen as it stands at the end, with what was agreed on."""
import asyncio
import sys

import takvorn


async def take(session: takvorn.Session, reader: asyncio.StreamReader, writer: asyncio.StreamWriter) -> bool:
    """Takes what the host sent, and sends what is due; whether the host goes on."""
    data = await reader.read(4096)
    writer.write(session.take(data))
    await writer.drain()
    return bool(data)


async def work(host: str, port: int, keys: "list[str]") -> takvorn.Screen:
    reader, writer = await asyncio.open_connection(host, port)
    session = takvorn.Session()
    while not session.takes_input and await take(session, reader, writer):
        pass
    agreed = session.agreed
    print(f"model {agreed.model}, {'TN3270E' if agreed.enhanced else 'TN3270'}" if agreed else "no session")
    for key in keys:
        pressed = session.press(key)
        if pressed.sent is not None:
            writer.write(pressed.sent)
            await take(session, reader, writer)
    writer.close()
    return session.screen


if __name__ == "__main__":
    host, _, port = sys.argv[1].rpartition(":")
    screen = asyncio.run(asyncio.wait_for(work(host, int(port), sys.argv[2:]), 20))
    for row in screen.text:
        print(row.rstrip())
    print(f"row {screen.cursor // screen.columns + 1}, column {screen.cursor % screen.columns + 1}, {screen.keyboard}")
