"""A headless Chromium, driven by its DevTools protocol over aiohttp's client of WebSockets."""
import asyncio
import base64
import contextlib
import itertools
import pathlib
import shutil
import subprocess
import tempfile
from collections.abc import AsyncIterator, Callable
from typing import Any, Optional

import aiohttp

WAIT = 30  # seconds for what takes a moment
_STEP = 0.05
PROGRAM = shutil.which("chromium")
_OPTIONS = (
    "--headless=new", "--no-sandbox", "--disable-gpu", "--disable-dev-shm-usage",
    "--hide-scrollbars", "--no-first-run", "--disable-background-networking",
    "--disable-component-update", "--disable-extensions", "--no-proxy-server",
    "--force-color-profile=srgb", "--lang=en", "--remote-debugging-port=0", "about:blank",
)  # fmt: skip

Event = dict[str, Any]


class Failed(Exception):
    """A command of the protocol has failed."""


class Connection:
    """The WebSocket of a browser. A reader answers the commands and keeps the events."""

    def __init__(self, socket: aiohttp.ClientWebSocketResponse) -> None:
        self._socket = socket
        self._numbers = itertools.count(1)
        self._answers: dict[int, asyncio.Future[Event]] = {}
        self.events: list[Event] = []
        self._reader = asyncio.create_task(self._read())

    async def send(self, method: str, session: Optional[str] = None, **parameters: Any) -> Event:
        number = next(self._numbers)
        message: Event = {"id": number, "method": method, "params": parameters}
        if session is not None:
            message["sessionId"] = session
        self._answers[number] = asyncio.get_running_loop().create_future()
        await self._socket.send_json(message)
        answer = await asyncio.wait_for(self._answers[number], WAIT)
        if "error" in answer:
            raise Failed(f"{method}: {answer['error']['message']}")
        return dict(answer["result"])

    async def _read(self) -> None:
        async for message in self._socket:
            event = message.json()
            if "id" in event:
                self._answers.pop(event["id"]).set_result(event)
            else:
                self.events.append(event)

    async def close(self) -> None:
        self._reader.cancel()
        await self._socket.close()


class Tab:
    """A tab of the browser, and the frames in it that have processes of their own."""

    def __init__(self, connection: Connection, session: str) -> None:
        self._connection = connection
        self._session = session

    async def send(self, method: str, **parameters: Any) -> Event:
        return await self._connection.send(method, self._session, **parameters)

    def events(self, method: str) -> list[Event]:
        """Returns the parameters of the events of a name, those of frames too."""
        return [event["params"] for event in self._connection.events if event["method"] == method]

    async def open(self, address: str) -> None:
        loader = (await self.send("Page.navigate", url=address))["loaderId"]
        loaded = {"loaderId": loader, "name": "load"}
        await until(lambda: any(loaded.items() <= event.items() for event in self.events("Page.lifecycleEvent")))

    async def _loading(self, command: Any) -> None:
        """Waits until a page is loaded that a command leads to."""
        before = len(self.events("Page.loadEventFired"))
        await command
        await until(lambda: len(self.events("Page.loadEventFired")) > before)

    async def evaluate(self, text: str) -> Any:
        """Returns the value of a text of JavaScript, in the page but not as a part of it."""
        found = await self.send("Runtime.evaluate", expression=text, returnByValue=True, awaitPromise=True)
        if "exceptionDetails" in found:
            raise Failed(str(found["exceptionDetails"]))
        return found["result"].get("value")

    async def text(self) -> str:
        return " ".join(str(await self.evaluate("document.body.innerText")).split())

    async def click(self, selector: str) -> None:
        """Clicks the middle of the first element of a selector, and waits for the next page."""
        await self._loading(self.press_mouse(selector))

    async def press_mouse(self, selector: str, x: float = 0.5, y: float = 0.5) -> None:
        place = await self.evaluate(
            f"(e => {{ e.scrollIntoView({{block: 'center'}}); const r = e.getBoundingClientRect();"
            f" return [r.x + r.width * {x}, r.y + r.height * {y}] }})"
            f"(document.querySelector({selector!r}))"
        )
        for kind in ("mouseMoved", "mousePressed", "mouseReleased"):
            button = {} if kind == "mouseMoved" else {"button": "left", "clickCount": 1}
            await self.send("Input.dispatchMouseEvent", type=kind, x=place[0], y=place[1], **button)

    async def key(self, name: str, code: int, text: str = "") -> None:
        await self.send("Input.dispatchKeyEvent", type="keyDown", key=name, code=name, windowsVirtualKeyCode=code, text=text)
        await self.send("Input.dispatchKeyEvent", type="keyUp", key=name, code=name, windowsVirtualKeyCode=code)

    async def tab(self) -> str:
        """Presses the tab key, and returns the name of what has the focus then."""
        await self.key("Tab", 9)
        return str(await self.evaluate(
            "(e => e.getAttribute('aria-label') || (e.labels && e.labels[0] || e).innerText.trim()"
            " || e.tagName)(document.activeElement)"
        ))  # fmt: skip

    async def enter(self) -> None:
        await self._loading(self.key("Enter", 13, "\r"))

    async def type(self, text: str) -> None:
        await self.send("Input.insertText", text=text)

    async def window(self, width: int, height: int, scheme: str = "light") -> None:
        """Sets the size of the window in pixels, and the scheme of colours."""
        await self.send("Emulation.setDeviceMetricsOverride", width=width, height=height, deviceScaleFactor=1, mobile=False)
        await self.send("Emulation.setEmulatedMedia", features=[{"name": "prefers-color-scheme", "value": scheme}])

    async def picture(self) -> bytes:
        """Returns a picture of the window, as PNG."""
        return base64.b64decode((await self.send("Page.captureScreenshot", format="png"))["data"])

    async def named(self, role: str) -> list[str]:
        """Returns the names of what has a role in the tree of accessibility, in its order."""
        nodes = (await self.send("Accessibility.getFullAXTree"))["nodes"]
        return [
            node.get("name", {}).get("value", "") for node in nodes
            if not node.get("ignored") and node.get("role", {}).get("value") == role
        ]  # fmt: skip

    async def frame_text(self) -> str:
        """Returns the text of the first frame in the page, which may have a process of its own."""
        return " ".join([text for text in await self._frame_strings() if text.strip()])

    async def _frame_strings(self) -> list[str]:
        sessions = [
            event["sessionId"] for event in self.events("Target.attachedToTarget")
            if event["targetInfo"]["type"] == "iframe"
        ]  # fmt: skip
        session = sessions[-1] if sessions else self._session
        snapshot = await self._connection.send("DOMSnapshot.captureSnapshot", session, computedStyles=[])
        document = snapshot["documents"][0 if sessions else 1]
        strings = snapshot["strings"]
        return [strings[number] for number in document["layout"]["text"] if number >= 0]


async def until(holds: Callable[[], bool]) -> None:
    """Waits until something holds."""
    async with asyncio.timeout(WAIT):
        while not holds():
            await asyncio.sleep(_STEP)


@contextlib.asynccontextmanager
async def browser() -> AsyncIterator[Tab]:
    """Starts Chromium with one tab. It is ended at the end."""
    assert PROGRAM is not None, "chromium is missing"
    with tempfile.TemporaryDirectory(ignore_cleanup_errors=True) as folder:
        command = (PROGRAM, *_OPTIONS[:-1], f"--user-data-dir={folder}", _OPTIONS[-1])
        process = subprocess.Popen(command, stdin=subprocess.DEVNULL, stdout=subprocess.DEVNULL, stderr=subprocess.DEVNULL)
        try:
            async with aiohttp.ClientSession() as client:
                connection = await _connect(client, pathlib.Path(folder, "DevToolsActivePort"))
                try:
                    yield await _new_tab(connection)
                finally:
                    with contextlib.suppress(Failed, asyncio.TimeoutError, ConnectionError):
                        await connection.send("Browser.close")
                    await connection.close()
        finally:
            with contextlib.suppress(subprocess.TimeoutExpired):
                process.wait(5)
            process.kill()
            process.wait()


async def _connect(client: aiohttp.ClientSession, port_file: pathlib.Path) -> Connection:
    await until(lambda: port_file.exists() and port_file.read_text().count("\n") > 0)
    port, path = port_file.read_text().splitlines()[:2]
    return Connection(await client.ws_connect(f"ws://127.0.0.1:{port}{path}", max_msg_size=0))


async def _new_tab(connection: Connection) -> Tab:
    target = (await connection.send("Target.createTarget", url="about:blank"))["targetId"]
    session = (await connection.send("Target.attachToTarget", targetId=target, flatten=True))["sessionId"]
    tab = Tab(connection, session)
    for domain in ("Page", "Runtime", "Network", "Log", "DOM", "Accessibility"):
        await tab.send(f"{domain}.enable")
    await tab.send("Page.setLifecycleEventsEnabled", enabled=True)
    await tab.send("Target.setAutoAttach", autoAttach=True, waitForDebuggerOnStart=False, flatten=True)
    await tab.window(1100, 900)
    return tab
