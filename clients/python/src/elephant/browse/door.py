"""Who may come in: the key in the address, the cookie, and what each request must have. No request of another page or machine passes."""

from __future__ import annotations

import os
import secrets
import threading
from collections.abc import Mapping
from hmac import compare_digest
from typing import Optional

# Nothing is loaded from elsewhere, no script or style stands in a page, and no page of ours is in a frame.
POLICY = (
    "default-src 'none'; script-src 'self'; style-src 'self'; img-src 'self'; connect-src 'self'; form-action 'self'; base-uri 'none'; "
    "frame-ancestors 'none'"
)
# A content of a file: nothing of it runs, also if it is opened by its address.
CONTENT_POLICY = "default-src 'none'; sandbox; frame-ancestors 'none'"
HEADERS = {
    "Content-Security-Policy": POLICY,
    "X-Content-Type-Options": "nosniff",
    "X-Frame-Options": "DENY",
    # A form's request then has its origin, which `no-referrer` would take from it.
    "Referrer-Policy": "same-origin",
    "Cross-Origin-Opener-Policy": "same-origin",
    "Cross-Origin-Resource-Policy": "same-origin",
    "Cache-Control": "no-store",
}
# What a cookie and a token hold, and the most bytes of what a caller gives as one.
BYTES, MOST = 32, 200


class Door:
    """The key, which opens once; and the cookie and the token that who came in has from then on.

    A key that was used is dead, and the next one is printed: an address in a shell's history or a list of processes opens nothing.
    """

    def __init__(self, port: int) -> None:
        self._port = port
        self.address = f"127.0.0.1:{port}"
        self.origin = f"http://{self.address}"
        self.cookie = f"elephant-browse-{port}"
        self.session, self.token = secrets.token_urlsafe(BYTES), secrets.token_urlsafe(BYTES)
        self.key = secrets.token_urlsafe(BYTES)
        self._lock = threading.Lock()

    @property
    def entrance(self) -> str:
        """The address that opens the page once."""
        return f"{self.origin}/?key={self.key}"

    def turn(self, key: str) -> bool:
        """Whether a key opens. It opens no more."""
        with self._lock:
            if not is_same(key, self.key):
                return False
            self.key = secrets.token_urlsafe(BYTES)
            return True

    def fault_of(self, method: str, headers: Mapping[str, str], has_key: bool = False) -> Optional[str]:
        """Returns why a request is refused by its headers, or None. A name that was made to lead to this machine is another host. The
        address with the key may be a link of another page."""
        if headers.get("Host") != self.address:
            return "the host of the address is not this page's"
        if method not in ("GET", "POST"):
            return "the method is neither GET nor POST"
        origin = headers.get("Origin")
        if origin is not None and origin != self.origin or method == "POST" and origin is None:
            return "the request comes from another page"
        site = None if has_key else headers.get("Sec-Fetch-Site")
        if site is not None and site != "same-origin" and (method == "POST" or site != "none"):
            return "the request comes from another page"
        return None

    def is_own_user(self, port: str) -> bool:
        """Whether the other end of a connection, which has a port, is a program of this user or of root, as far as the system says it.

        A cookie isn't bound to a port: the page of another user's server on this machine may get it.
        """
        ends = f":{int(port):04X}" if port.isdigit() else "", f"0100007F:{self._port:04X}"
        try:
            with open("/proc/net/tcp", encoding="ascii") as file:
                rows = [it.split() for it in file]
        except (OSError, ValueError):
            return True
        users = {it[7] for it in rows if len(it) > 7 and it[1].endswith(ends[0]) and it[2] == ends[1]}
        return not ends[0] or users <= {str(os.getuid()), "0"}

    def has_come_in(self, cookie: Optional[str]) -> bool:
        """Whether a cookie is that of who came in by the key."""
        return cookie is not None and is_same(cookie, self.session)

    def is_token(self, token: str) -> bool:
        """Whether a form is one of this page's."""
        return is_same(token, self.token)


def is_same(given: str, wanted: str) -> bool:
    """Whether a secret is the one that is wanted, in a time that doesn't depend on it."""
    return len(given) <= MOST and compare_digest(given.encode("utf-8", "replace"), wanted.encode("ascii"))
