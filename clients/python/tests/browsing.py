"""A page that answers at a port, and a caller that sends it just what a test says."""

from __future__ import annotations

import http.client
import re
import threading
from collections.abc import Mapping
from html.parser import HTMLParser
from types import TracebackType
from typing import NamedTuple, Optional
from urllib.parse import urlencode

from elephant.browse.main import serving
from elephant.browse.sources import Source


class Answer(NamedTuple):
    """An answer: its status, its headers by their names in small letters, and its body."""

    status: int
    headers: Mapping[str, str]
    body: bytes

    @property
    def text(self) -> str:
        return self.body.decode("utf-8")


class Elements(HTMLParser):
    """The elements of a page, with their attributes, and its text."""

    def __init__(self, page: str) -> None:
        super().__init__()
        self.found: list[tuple[str, dict[str, Optional[str]]]] = []
        self.text = ""
        self.feed(page)
        self.close()

    def handle_starttag(self, tag: str, attrs: list[tuple[str, Optional[str]]]) -> None:
        self.found.append((tag, dict(attrs)))
        self.text += " " * (tag in ("td", "th", "li", "option"))

    def handle_data(self, data: str) -> None:
        self.text += data

    def of(self, tag: str) -> list[dict[str, Optional[str]]]:
        return [attributes for name, attributes in self.found if name == tag]


class Served:
    """A page that answers in a thread of its own. `come_in` takes the cookie; `ask` and `send` are requests."""

    def __init__(self, source: Source) -> None:
        self.source = source
        self.announced: list[str] = []
        self.server, self.door = serving(source, 0, self.announced.append)
        self.port = int(self.server.effective_port)
        self.cookie = ""
        self._thread = threading.Thread(target=self._run, daemon=True)
        self._thread.start()

    def _run(self) -> None:
        try:
            self.server.run()
        except OSError:
            pass  # it was closed

    def __enter__(self) -> Served:
        return self

    def __exit__(self, kind: Optional[type[BaseException]], fault: Optional[BaseException], trace: Optional[TracebackType]) -> None:
        # The workers first: one may still be about to wake the server.
        self.server.task_dispatcher.shutdown()
        for channel in list(self.server.active_channels.values()):
            channel.close()
        self.server.close()
        self._thread.join(10)
        self.source.close()

    def request(self, method: str, address: str, headers: Optional[Mapping[str, str]] = None, body: Optional[bytes] = None) -> Answer:
        """Sends a request with just these headers, and a Host unless they have one."""
        connection = http.client.HTTPConnection("127.0.0.1", self.port, timeout=30)
        try:
            words = dict(headers or {})
            connection.putrequest(method, address, skip_host=True, skip_accept_encoding=True)
            if "Host" not in words:
                words["Host"] = f"127.0.0.1:{self.port}"
            for name, value in words.items():
                if value:
                    connection.putheader(name, value)
            if body is not None:
                connection.putheader("Content-Length", str(len(body)))
            connection.endheaders(body)
            answer = connection.getresponse()
            return Answer(answer.status, {name.lower(): value for name, value in answer.getheaders()}, answer.read())
        finally:
            connection.close()

    def come_in(self) -> None:
        answer = self.request("GET", self.door.entrance.partition(str(self.port))[2])
        assert answer.status == 200, answer
        self.cookie = answer.headers["set-cookie"].partition(";")[0]

    def ask(self, address: str, **headers: str) -> Answer:
        """Sends a GET as the page's own links do."""
        return self.request("GET", address, {"Cookie": self.cookie, **headers})

    def send(self, address: str, form: Mapping[str, str], **headers: str) -> Answer:
        """Sends a POST as the page's own forms do."""
        own = {
            "Cookie": self.cookie, "Origin": f"http://127.0.0.1:{self.port}", "Content-Type": "application/x-www-form-urlencoded",
        }
        return self.request("POST", address, {**own, **headers}, urlencode(form).encode())

    def form_of(self, address: str) -> dict[str, str]:
        """Asks a question, and returns the fields of its form."""
        answer = self.ask(address)
        assert answer.status == 200, (address, answer.status, re.sub(r"<[^>]+>", " ", answer.text)[-500:])
        fields = Elements(answer.text.partition('class="act"')[2]).of("input")
        return {str(it["name"]): str(it.get("value") or "") for it in fields if it.get("name")}

    def act(self, kind: str, words: Mapping[str, str], **more: str) -> Answer:
        """Asks a question and says yes."""
        return self.send(f"/do/{kind}", {**self.form_of(f"/ask/{kind}?{urlencode(words)}"), **more})
