"""Attacks on the page of `elephant-browse`: each has to be refused, and each name and content has to be shown and not run."""

from __future__ import annotations

import importlib.util
import os
import re
import socket
import subprocess
import sys
import tempfile
import unittest
from collections.abc import Iterator
from pathlib import Path
from urllib.parse import quote

from elephant import BadName, Store

HAS_FLASK = importlib.util.find_spec("flask") is not None and importlib.util.find_spec("waitress") is not None
if HAS_FLASK:
    from browsing import Elements, Served
    from elephant.browse.sources import JournalSource

NOW = 1_796_000_000
HOSTILE = [
    "<script>alert(1)<x>", "<img src=x onerror=alert(1)>", "\"onmouseover=alert(1) x=\"", "'-alert(1)-'", "javascript:alert(1)",
    "{{7*7}}", "{% include 'x' %}", "${alert(1)}", "<svg onload=alert(1)>", "--><script>", "]]><script>", "<title>", "<style>",
    "a&lt;script&gt;", "&#60;script&#62;", "%3Cscript%3E", "\u202egnp.exe", "a\nb", "a\rb: c", "a\tb", "\x07", "\x1b[31m",
    "\u2028", "\ufeffx",
    "<base href=x>", "<meta http-equiv=refresh content=0>", "<iframe srcdoc=x>", "<form action=x>", "<input name=token>", "onload=alert(1)",
    "a b", " ", "?path=x", "#x", "a;b", "..%2f..%2f", "%2e%2e", "\\..\\x", "CON", "-rf", "$(id)", "`id`", "|x", "a\"b", "a'b", "a`b",
    "\U0001f600", "é", "\udcff", "<!--",
]
BODIES = [
    b"<script>window.hacked=1</script>", b"<html><body onload=alert(1)>", b"%PDF-1.4 <script>", b"GIF89a/*<script>*/=1;alert(1)",
    b"\x89PNG\r\n\x1a\n<script>alert(1)</script>", b"<svg xmlns='http://www.w3.org/2000/svg' onload='alert(1)'/>", b"\xff\xfe<\x00s\x00",
    "\u202e\u2066<script>".encode(), b"{{7*7}}", b"\x1b]0;x\x07",
]


def fill(store: Store) -> dict[str, bytes]:
    """Saves a file for each hostile name, with hostile contents. Returns the spelled paths by the names."""
    spelled = {}
    store.clock(NOW)
    store.save("/f", b"one\n")
    store.clock(NOW + 60)
    store.save("/f", b"two\n")
    store.clock(NOW + 120)
    for at, name in enumerate(HOSTILE):
        try:
            store.save(f"/{name}", BODIES[at % len(BODIES)])
        except BadName:
            continue
        spelled[name] = next(it.spelled for it in store.list() if it.name == name)
    store.clock(NOW + 180)
    for name in list(spelled)[::7]:
        store.unlink(f"/{name}")
    store.clock(NOW + 240)
    return spelled


@unittest.skipUnless(HAS_FLASK, "there is no flask or waitress")
class Attacks(unittest.TestCase):
    room: tempfile.TemporaryDirectory[str]
    page: Served
    first: str
    spelled: dict[str, bytes]

    @classmethod
    def setUpClass(cls) -> None:
        cls.room = tempfile.TemporaryDirectory()
        journal = str(Path(cls.room.name, "attacked.journal"))
        with Store(journal, clock="manual", fsync="sync") as store:
            cls.spelled = fill(store)
        cls.page = Served(JournalSource(journal, is_manual=True)).__enter__()
        cls.first = cls.page.door.entrance
        cls.page.come_in()

    @classmethod
    def tearDownClass(cls) -> None:
        cls.page.__exit__(None, None, None)
        cls.room.cleanup()

    def versions(self) -> int:
        return self.page.source.store.counts().versions

    def own(self) -> str:
        return f"127.0.0.1:{self.page.port}"

    # The key and the cookie.

    def test_a_key_opens_once(self) -> None:
        page = self.page
        address = self.first.partition(str(page.port))[2]
        self.assertEqual(page.request("GET", address).status, 403)
        second = page.announced[-1].partition(str(page.port))[2]
        self.assertNotEqual(address, second)
        answer = page.request("GET", second)
        self.assertEqual((answer.status, page.request("GET", second).status), (200, 403))
        cookie = answer.headers["set-cookie"]
        for word in ("HttpOnly", "SameSite=Strict", "Path=/"):
            self.assertIn(word, cookie)
        self.assertNotIn("Domain", cookie)
        self.assertNotIn(page.door.key, answer.text)

    def test_nobody_comes_in_without_the_cookie(self) -> None:
        page = self.page
        name, _, value = page.cookie.partition("=")
        wrong = ["", f"{name}=", f"{name}={value[:-1]}", f"{name}={value}x", f"other={value}", f"{name}={'x' * 5000}", f"{name}=\xe4"]
        for cookie in wrong:
            for address in ("/", "/?path=/f", "/content?path=/f&version=2", "/moment?index=0", "/static/browse.js", "/ask/undo", "/?key=x"):
                answer = page.request("GET", address, {"Cookie": cookie})
                self.assertEqual((answer.status, b"/f" in answer.body), (403, False), (cookie[:80], address))

    def test_the_secrets_are_long_and_differ(self) -> None:
        door = self.page.door
        self.assertEqual(len({door.key, door.session, door.token}), 3)
        self.assertTrue(all(len(it) >= 43 for it in (door.key, door.session, door.token)))

    # Hosts, origins and methods.

    def test_other_hosts_are_refused(self) -> None:
        """A name whose address an attacker has changed to this machine's is another host."""
        port = self.page.port
        for host in ("evil.example", f"evil.example:{port}", "127.0.0.1", f"localhost:{port}",
                     f"127.0.0.1:{port + 1}", f"127.0.0.1:{port}.evil",
                     f"[::1]:{port}", f"127.0.0.2:{port}", "0.0.0.0", f"127.0.0.1:0{port}", f"127.1:{port}", f"2130706433:{port}"):
            self.assertEqual(self.page.ask("/?path=/f", Host=host).status, 403, host)
        with socket.create_connection(("127.0.0.1", port), 5) as caller:
            caller.sendall(f"GET /?path=/f HTTP/1.0\r\nCookie: {self.page.cookie}\r\n\r\n".encode())
            self.assertIn(b" 403 ", caller.recv(100))

    def test_only_this_machine_can_connect(self) -> None:
        for address in ("127.0.0.2", "::1", *self._addresses()):
            family = socket.AF_INET6 if ":" in address else socket.AF_INET
            with socket.socket(family) as caller, self.assertRaises(OSError):
                caller.settimeout(2)
                caller.connect((address, self.page.port))

    @staticmethod
    def _addresses() -> Iterator[str]:
        ran = subprocess.run(["hostname", "-I"], capture_output=True, text=True, check=False)
        yield from (it for it in ran.stdout.split() if not it.startswith("127."))

    @unittest.skipUnless(os.getuid() == 0, "only root can call as another user")
    def test_another_user_with_the_cookie_is_refused(self) -> None:
        program = (
            "import http.client, sys; c = http.client.HTTPConnection('127.0.0.1', int(sys.argv[1])); "
            "c.request('GET', '/', headers={'Cookie': sys.argv[2]}); print(c.getresponse().status)"
        )
        words = ["/usr/bin/python3", "-I", "-c", program, str(self.page.port), self.page.cookie]
        for user, wanted in ((65534, "403"), (0, "200")):
            ran = subprocess.run(words, capture_output=True, text=True, check=False, user=user, cwd="/")
            self.assertEqual(ran.stdout.strip(), wanted, ran.stderr)

    def test_requests_of_other_pages_are_refused(self) -> None:
        page, before = self.page, self.versions()
        form = page.form_of("/ask/restore?path=/f&version=2")
        origins = [
            "http://evil.example", "null", f"http://127.0.0.1:{page.port + 1}", f"https://{self.own()}",
            f"http://{self.own()}.evil", "",
        ]
        for origin in origins:
            self.assertEqual(page.send("/do/restore", form, Origin=origin).status, 403, origin)
        for site in ("cross-site", "same-site", "none"):
            self.assertEqual(page.send("/do/restore", form, **{"Sec-Fetch-Site": site}).status, 403, site)
        for site in ("cross-site", "same-site"):
            self.assertEqual(page.ask("/?path=/f", **{"Sec-Fetch-Site": site}).status, 403, site)
        self.assertEqual(page.ask("/?path=/f", Origin="http://evil.example").status, 403)
        self.assertEqual(self.versions(), before)

    def test_a_change_needs_the_token_and_the_state(self) -> None:
        page, before = self.page, self.versions()
        form = page.form_of("/ask/restore?path=/f&version=2")
        for token in ("", "x", page.door.session, page.door.token[:-1], page.door.token + "x", "\xe4"):
            self.assertEqual(page.send("/do/restore", {**form, "token": token}).status, 403, token)
        bare = {name: value for name, value in form.items() if name != "token"}
        self.assertEqual(page.send(f"/do/restore?token={page.door.token}", bare).status, 403)
        for state in ("", "x"):
            answer = page.send("/do/restore", {**form, "state": state})
            self.assertIn("has changed", answer.text)
        self.assertEqual(self.versions(), before)

    def test_nothing_changes_by_a_get_or_another_method(self) -> None:
        page, before = self.page, self.versions()
        form = page.form_of("/ask/restore?path=/f&version=2")
        for kind in ("restore", "undelete", "folder", "keep", "release", "policy", "undo"):
            words = "&".join(f"{name}={quote(value)}" for name, value in form.items())
            self.assertEqual(page.ask(f"/do/{kind}?{words}").status, 405)
        for method in ("PUT", "DELETE", "PATCH", "OPTIONS", "TRACE", "HEAD", "CONNECT", "PROPFIND"):
            self.assertIn(page.request(method, "/do/restore", {"Cookie": page.cookie}).status, (400, 403, 405, 501), method)
        self.assertEqual(page.send("/", form).status, 405)
        self.assertEqual(self.versions(), before)

    # What a page has.

    def addresses(self) -> list[str]:
        """Returns an address of each view, also of hostile names, and of refusals."""
        found = [
            "/", "/?deleted=1", "/?path=/f", "/?path=/f&version=2&with=3", f"/?path=/f&at={NOW + 10}", "/?path=/none",
            "/soon?within=year", "/gone",
            "/space", "/kept", "/policy?path=/f&kind=one", "/policy?path=/&kind=word&word=<script>",
            "/policy?path=/&kind=safe&days=3&floor=1",
            "/ask/restore?path=/f&version=2", "/ask/undo", f"/ask/folder?path=/&at={NOW + 10}", f"/ask/keep?path=/&at={NOW + 10}",
            "/ask/nothing", "/ask/keep?path=/f", "/none", "/?path=x", "/?at=x", "/ask/release?group=<script>&at=1", "/static/none",
        ]
        for spelled in self.spelled.values():
            path = quote(b"/" + spelled)
            found += [
                f"/?path={path}", f"/?path={path}&at={NOW + 130}", f"/ask/undelete?path={path}", f"/policy?path={path}&kind=all",
                f"/ask/restore?path={path}&version=1&at={NOW + 130}",
            ]
        return found

    def test_each_answer_is_sealed(self) -> None:
        for address in self.addresses():
            answer = self.page.ask(address)
            policy = answer.headers["content-security-policy"]
            self.assertIn("default-src 'none'", policy, address)
            self.assertNotIn("unsafe", policy)
            self.assertNotIn("*", policy)
            self.assertEqual(answer.headers["x-content-type-options"], "nosniff", address)
            self.assertEqual(answer.headers["cache-control"], "no-store", address)
            self.assertEqual(answer.headers["x-frame-options"], "DENY", address)
            self.assertNotIn("access-control-allow-origin", answer.headers)
            self.assertNotIn("server", answer.headers)

    def test_no_page_has_a_script_or_style_in_it_or_an_address_elsewhere(self) -> None:
        for address in self.addresses():
            page = Elements(self.page.ask(address).text)
            for tag, attributes in page.found:
                self.assertNotIn(tag, ("iframe", "object", "embed", "base", "style", "applet", "frame"), address)
                self.assertFalse([it for it in attributes if it == "style" or it.startswith("on")], (address, tag, attributes))
                for name in ("href", "src", "action", "srcset", "formaction", "xlink:href"):
                    value = attributes.get(name)
                    self.assertTrue(value is None or re.match(r"/(?!/)|#", value), (address, tag, value))
            self.assertTrue(all(it.get("src") == "/static/browse.js" for it in page.of("script")), address)
            self.assertEqual(len(page.of("title")), 1, address)
            self.assertFalse([it for it in page.of("meta") if it.get("http-equiv")], address)

    def test_hostile_names_are_shown_as_they_are(self) -> None:
        self.assertGreaterEqual(len(self.spelled), 40)
        shown = Elements(self.page.ask("/?deleted=1").text).text
        for name, spelled in self.spelled.items():
            wanted = "".join(it if it.isprintable() else f"\\u{{{ord(it):x}}}" for it in name)
            self.assertIn(wanted, shown, name)
            answer = self.page.ask(f"/?path={quote(b'/' + spelled)}&at={NOW + 130}")
            self.assertEqual((answer.status, f"/{wanted}" in Elements(answer.text).text), (200, True), name)

    def test_contents_are_no_pages(self) -> None:
        for name, spelled in self.spelled.items():
            words = f"path={quote(b'/' + spelled)}&version=2&at={NOW + 130}"
            answer = self.page.ask(f"/content?{words}")
            self.assertEqual(answer.status, 200, name)
            self.assertIn(answer.body, BODIES)
            self.assertEqual(answer.headers["content-type"], "application/octet-stream")
            self.assertTrue(answer.headers["content-disposition"].startswith("attachment;"))
            self.assertIn("sandbox", answer.headers["content-security-policy"])
            self.assertEqual(answer.headers["x-content-type-options"], "nosniff")
            image = self.page.ask(f"/image?{words}")
            if image.status == 200:
                self.assertIn(image.headers["content-type"], ("image/gif", "image/png"))
                self.assertIn("sandbox", image.headers["content-security-policy"])
            else:
                self.assertEqual(image.status, 404)

    # Paths of the machine, and sizes.

    def test_no_file_of_the_machine_can_be_reached(self) -> None:
        for name in ("../main.py", "..%2fmain.py", "%2e%2e/main.py", "/etc/passwd", "%2fetc%2fpasswd",
                     "browse.css%00", "....//main.py", "."):
            answer = self.page.ask(f"/static/{name}")
            self.assertIn(answer.status, (404, 308, 400), name)
            self.assertNotIn(b"import", answer.body)
        for path in ("/etc/passwd", "/../../etc/passwd", "//etc/passwd", "/..", "/.", "file:///etc/passwd", "/proc/self/environ"):
            for address in (f"/?path={quote(path)}", f"/content?path={quote(path)}&version=1",
                            f"/ask/restore?path={quote(path)}&version=1"):
                answer = self.page.ask(address)
                self.assertIn(answer.status, (400, 404, 409), address)
                self.assertNotIn(b"root:", answer.body)

    def test_no_line_gets_another_word_by_a_path(self) -> None:
        page, before = self.page, self.versions()
        form = page.form_of("/ask/restore?path=/f&version=2")
        for path in ("/f 2\nunlink /f", "/f\nunlink /f", "/f 9", "/f#2", "/f@1", "/f\r\n", "/f\0", "/f\x85x",
                     "f", "", "/f/", "/" + "x" * 65):
            for kind in ("restore", "undelete", "policy", "keep", "folder"):
                answer = page.send(f"/do/{kind}", {**form, "path": path, "policy": "one", "at": str(NOW)})
                self.assertIn(answer.status, (200, 400, 409), (kind, path))
                self.assertNotIn("has come true", answer.text)
            self.assertIn(page.ask(f"/?path={quote(path)}").status, (400, 404, 200 if not path else 400), path)
        for word in ("one\nunlink /f", "one two", "safe:1 2", "all;all", "\0"):
            self.assertEqual(page.send("/do/policy", {**form, "policy": word}).status, 409, word)
        for number in ("2 3", "2\n", "-1", "1e3", "٣", "9" * 30):
            self.assertIn(page.send("/do/restore", {**form, "version": number}).status, (400, 409), number)
        self.assertEqual((self.versions(), page.source.store.read("/f")), (before, b"two\n"))

    def test_sizes_are_bounded(self) -> None:
        page = self.page
        self.assertEqual(page.ask("/", Cookie2="x" * 70_000).status, 431)
        self.assertIn(page.send("/do/undo", {"token": page.door.token, "x": "x" * 100_000}).status, (400, 413))
        for address in (f"/?path=/{'x' * 5000}", f"/?path=/f&version={'9' * 40}", f"/?path=/f&start={'9' * 19}", f"/go?when={'x' * 500}"):
            self.assertEqual(page.ask(address).status, 400, address[:40])
        for address in ("/?path=/f&start=999999999999", "/?start=999999999999", "/soon?start=999999999999", "/moment?index=999999999999",
                        "/?deleted=1&gone=99999999", f"/?at={10 ** 17}", "/?path=/f&version=99999999&with=99999999"):
            self.assertEqual(page.ask(address).status, 200, address)
        # Notices that nobody takes don't pile up.
        for _ in range(150):
            page.ask("/go?when=nonsense")
        deep = "/" + "/".join("a" * 33)
        self.assertEqual(page.ask(f"/?path={deep}").status, 400)

    def test_a_page_says_nothing_of_the_program_when_it_fails(self) -> None:
        for address in ("/?path=%ff", "/?path=/f&version=x", "/soon?within=__class__", "/ask/__init__", "/do/x"):
            answer = self.page.ask(address)
            self.assertIn(answer.status, (400, 404, 405), address)
            self.assertNotIn("Traceback", answer.text)
            self.assertNotIn(".py", answer.text)


@unittest.skipUnless(HAS_FLASK, "there is no flask or waitress")
class Commands(unittest.TestCase):
    def test_the_address_is_printed_alone_and_the_port_is_closed_at_the_end(self) -> None:
        with tempfile.TemporaryDirectory() as room:
            journal = str(Path(room, "j"))
            with Store(journal, clock="manual") as store:
                store.save("/f", b"1")
            words = [sys.executable, "-m", "elephant.browse", journal, "--no-open"]
            with subprocess.Popen(words, stdout=subprocess.PIPE, stderr=subprocess.PIPE, text=True) as ran:
                assert ran.stdout and ran.stderr
                address = ran.stdout.readline()
                self.assertRegex(address, r"^http://127\.0\.0\.1:\d+/\?key=[\w-]{43}\n$")
                port = int(address.split(":")[2].partition("/")[0])
                with socket.create_connection(("127.0.0.1", port), 5):
                    pass
                ran.terminate()
                self.assertEqual((ran.wait(20), ran.stderr.read()), (0, ""))
            with self.assertRaises(OSError):
                socket.create_connection(("127.0.0.1", port), 2)

    def test_what_can_not_be_shown_is_said(self) -> None:
        with tempfile.TemporaryDirectory() as room:
            Path(room, "no").write_text("nothing of ours\n", encoding="utf-8")
            wrong: list[list[str]] = [[f"{room}/none"], [f"{room}/no"], ["--at", room], [], ["a", "--at", "b"]]
            for words in wrong:
                ran = subprocess.run(
                    [sys.executable, "-m", "elephant.browse", *words, "--no-open"], capture_output=True, text=True, check=False, timeout=60
                )
                self.assertIn(ran.returncode, (1, 2), words)
                self.assertIn("elephant-browse", ran.stderr)
                self.assertNotIn("Traceback", ran.stderr)
            self.assertFalse(Path(room, "none").exists())


if __name__ == "__main__":
    unittest.main()
