"""What users do on the page of `elephant-browse`, in a browser."""

import contextlib
import os
import subprocess
import sys
import threading
import time
from collections.abc import Iterator
from http.server import BaseHTTPRequestHandler, ThreadingHTTPServer
from pathlib import Path

from elephant import KeepSafe, Store
from selenium.webdriver.common.keys import Keys

from library import browse_stores, browse_views
from library.browse_stores import DAY, OFFER, PARAGRAPH
from library.browser import PATIENCE, Browser, Wrong, environment, expect, visiting

# How many checks each story is.
Count = int
NARROW = 360
# How long a view may take to be there, and how often it is tried on a busy machine.
MOST_MILLISECONDS, TRIES = 1000, 10


def held(journal: Path, path: str) -> bytes:
    """Returns what a file of a journal holds now."""
    with Store(journal, read_only=True) as store:
        return store.read(path)


def entering(room: Path) -> Count:
    """The key opens once; a script sees no cookie, and the address keeps no key."""
    journal = room / "entering"
    browse_stores.documents(journal)
    with visiting(room, str(journal), "--manual") as (browser, program):
        expect(browser.script("return document.cookie") == "", "a script sees the cookie")
        cookies = browser.driver.get_cookies()
        expect([(it["httpOnly"], it["sameSite"], it["path"]) for it in cookies] == [(True, "Strict", "/")], f"the cookie is {cookies}")
        expect("key" not in browser.script("return location.href"), "the address has a key")
        browser.driver.delete_all_cookies()
        browser.visit()
        expect("403" in browser.text(), "without the cookie the page is shown")
        browser.driver.get(program.entrance)
        expect("403" in browser.text(), "a key opens twice")
        browser.enter(program, program.another_entrance())
        browser.faults()
        browser.visit()
        expect(browser.faults() == [], "the browser complains of the page")
    return 5


def lost_paragraph(room: Path) -> Count:
    """A user finds the paragraph that was lost, looks at the difference, restores it and undoes that."""
    journal = room / "paragraph"
    browse_stores.documents(journal)
    with visiting(room, str(journal), "--manual") as (browser, _):
        browser.follow("letters/", "nav.tree")
        browser.follow("offer", "nav.tree")
        expect(PARAGRAPH.split("\n")[0] not in browser.text("pre.content"), "the paragraph isn't lost")
        expect(browser.text("main table.versions caption").startswith("4 versions held"), "the versions")
        browser.follow("Compare version 3 with version 4")
        deleted = browser.text("table.difference del")
        expect(all(line in deleted for line in PARAGRAPH.splitlines()), f"the difference shows {deleted!r}")
        browser.follow("3")
        expect(PARAGRAPH.split("\n")[0] in browser.text("pre.content"), "version 3 has the paragraph")
        browser.follow("Restore version 3")
        expect("new version 5" in browser.text("ul.tells"), "the question says what it changes")
        expect(held(journal, "/letters/offer") != (OFFER + PARAGRAPH).encode(), "a question changes nothing")
        expect("holds what version 3 held" in browser.say_yes(), "it says what it did")
        expect(held(journal, "/letters/offer") == (OFFER + PARAGRAPH).encode(), "the journal has the paragraph")
        expect(browser.text("tr.chosen th") == "5" and PARAGRAPH.split("\n")[0] in browser.text("pre.content"), "the page shows it")
        browser.press("p.undo a")
        expect("Undone" in browser.say_yes(), "the undo")
        expect("April" in held(journal, "/letters/offer").decode(), "the undo took it back")
    return 10


def folder(room: Path) -> Count:
    """A user moves the slider to when all was well, and restores the folder."""
    journal = room / "folder"
    browse_stores.documents(journal)
    with visiting(room, str(journal), "--manual") as (browser, _):
        browser.visit(path="/bills/2026")
        expect("READ_ME" in browser.text("main") and "march" not in browser.text("main"), "the folder of now")
        browser.press("#show-deleted")
        expect("march" in browser.text("table.deleted"), "what was deleted")
        slider = browser.one("#moments")
        expect([slider.get_attribute(it) for it in ("min", "max", "value")] == ["0", "6", "6"], "the slider's places")
        slider.send_keys(Keys.ARROW_LEFT, Keys.ARROW_LEFT)
        browser.until(lambda: f"at={browse_stores.BEGIN - 3600}" in browser.driver.current_url, "the slider leads to the moment before")
        expect(browser.one("#moments").get_attribute("value") == "4", "the slider's place")
        expect("march" in browser.text("main table.rows") and "READ_ME" not in browser.text("main"), "the folder of then")
        expect("28 Nov 2026" in browser.text("#moment-shown"), f"the moment is shown as {browser.text('#moment-shown')}")
        browser.press("#restore-folder")
        tells = browser.text("ul.tells")
        expect("bring /bills/2026/march back" in tells and "/bills/2026/READ_ME is newer, and stays" in tells, f"it says {tells}")
        browser.say_yes()
        for name in browse_stores.BILLS:
            expect(held(journal, f"/bills/2026/{name}") == f"{name}: 120.00\n".encode(), f"{name} is restored")
        browser.press("p.undo a")
        browser.say_yes()
        expect(b"encrypted" in held(journal, "/bills/2026/january"), "the undo")
        browser.visit(path="/bills/2026", deleted=1)
        browser.follow("Bring back march")
        browser.say_yes()
        expect(held(journal, "/bills/2026/march") == b"march: 120.00\n", "the deleted name is back")
    return 13


def policy(room: Path) -> Count:
    """A user looks what another policy would forget, changes it, and keeps a moment."""
    journal = room / "policy"
    moments = browse_stores.documents(journal)
    with visiting(room, str(journal), "--manual") as (browser, _):
        browser.visit(path="/letters/offer")
        browser.press("#policy")
        browser.one("input[value=one]").click()
        browser.press("#look")
        rows = {it.text for it in browser.all("table.horizons tr")}
        expect("now 0 3" in {" ".join(it.split()) for it in rows}, f"the horizons are {rows}")
        expect(len(browser.all("table.both tr.lost")) == 3 and len(browser.all("table.both svg.bar")) == 8, "both drawings")
        with Store(journal, read_only=True) as store:
            expect(str(getattr(store.stat("/letters/offer"), "policy")) == "safe:2592000/3", "a preview changes nothing")
        browser.one("input[value=safe]").click()
        for name, value in (("days", "1"), ("floor", "2")):
            field = browser.one(f"input[name={name}]")
            field.clear()
            field.send_keys(value)
        browser.press("#look")
        browser.press("#change")
        expect("each version for 1 day after its end" in browser.text("ul.tells"), "the question")
        browser.say_yes()
        with Store(journal, read_only=True) as store:
            expect(getattr(store.stat("/letters/offer"), "policy") == KeepSafe(days=1, floor=2), "the policy is changed")
        browser.visit(path="/letters", at=moments["whole"])
        browser.press("#keep")
        browser.one("#label").send_keys("the offer, whole")
        browser.one("#days").send_keys("90")
        expect("is kept" in browser.say_yes(), "the mark")
        with Store(journal, read_only=True) as store:
            marks = store.groups()[0].marks
            expect(marks == ((moments["whole"], moments["wrong"] + 600 + 90 * DAY),), f"the marks are {marks}")
        browser.visit("/kept")
        expect("the offer, whole" in browser.text("table"), "the kept moments")
        browser.follow("End it the offer, whole")
        browser.say_yes()
        with Store(journal, read_only=True) as store:
            expect(store.groups()[0].marks == (), "the mark's end")
    return 9


def hostile(room: Path) -> Count:
    """Names and contents that would run if a page let them are shown, and none runs."""
    journal = room / "hostile"
    found = browse_stores.hostile(journal)
    expect(len(found) >= 50, f"only {len(found)} names could be made")
    with visiting(room, str(journal), "--manual") as (browser, _):
        browser.faults()
        hacked = "return window.hacked !== undefined || document.querySelectorAll('iframe, object, embed, base, main script').length > 0"
        browser.visit(deleted=1)
        for name, _ in found:
            wanted = "".join(it if it.isprintable() else f"\\u{{{ord(it):x}}}" for it in name)
            names = browser.script("return [...document.querySelectorAll('table.rows th a')].map((it) => it.textContent)")
            expect(wanted in names, f"{name!r} isn't shown as it is")
        for name, path in found:
            for address in (f"/?path={_quoted(path)}", f"/?path={_quoted(path)}&version=3&with=2"):
                browser.driver.get(browser.origin + address)
                expect(not browser.script(hacked), f"{name!r} runs, or its content does")
                expect(browser.text("main h1") != "", f"{name!r} has no heading")
            browser.driver.get(f"{browser.origin}/image?path={_quoted(path)}&version=2")
            expect(not browser.script("return window.hacked !== undefined"), f"an image of {name!r} runs")
        browser.visit(path=found[0][1])
        _press_all(browser)
        expect(not browser.script(hacked), "something runs when the pointer is over it")
        faults = [it for it in browser.faults() if "404" not in it and "/image" not in it]
        expect(faults == [], f"the browser complains: {faults[:3]}")
    return len(found) * 6


EVIL = """<!DOCTYPE html><title>evil</title><body><script>
const target = TARGET, seen = window.seen = {};
const note = (name, what) => { seen[name] = what; };
for (const [tag, address] of [["img", "/image?path=/logo.png&version=2"], ["script", "/static/browse.js"], ["script", "/moment?index=0"]]) {
  const it = document.createElement(tag);
  it.onload = () => note(address, "loaded");
  it.onerror = () => note(address, "refused");
  it.src = target + address;
  document.body.append(it);
}
for (const mode of ["cors", "no-cors"]) {
  const asked = fetch(target + "/?path=/notes", { credentials: "include", mode });
  asked.then((it) => it.text()).then((text) => note(mode, text), () => note(mode, "refused"));
}
const frame = document.createElement("iframe");
frame.src = target + "/?path=/notes";
frame.name = "frame";
document.body.append(frame);
const form = document.createElement("form");
form.method = "post"; form.action = target + "/do/restore"; form.target = "frame";
for (const [name, value] of [["path", "/letters/offer"], ["version", "3"], ["token", "x"], ["state", "x"]]) {
  const it = document.createElement("input");
  it.name = name; it.value = value; form.append(it);
}
document.body.append(form);
form.submit();
</script>"""


def others(room: Path) -> Count:
    """Another page of this machine, one of a name that leads to it, and a name in place of the page's own host get nothing."""
    journal = room / "others"
    browse_stores.documents(journal)
    before = journal.read_bytes()
    with visiting(room, str(journal), "--manual") as (browser, _), _serving(EVIL, browser.origin) as port:
        # A server without a guard gives its scripts to another host's page, and that is noticed.
        browser.driver.get(f"http://evil.example:{port}/control")
        browser.until(lambda: list(browser.script("return Object.values(window.seen)")).count("loaded") == 2, "what is loaded is noticed")
        for host in ("127.0.0.1", "evil.example"):
            browser.driver.get(f"http://{host}:{port}/")
            browser.until(lambda: len(browser.script("return Object.keys(window.seen)")) == 5, "each try of the other page ends")
            seen = browser.script("return window.seen")
            expect(set(seen.values()) <= {"refused", ""}, f"a page of {host} got {seen}")
            expect(browser.script("try { return frames[0].document.body.textContent } catch { return '' }") == "", "it reads a frame")
        page = int(browser.origin.rpartition(":")[2])
        for host in ("evil.example", "localhost"):
            browser.driver.get(f"http://{host}:{page}/?path=/notes")
            expect("buy milk" not in browser.text() and "403" in browser.text(), f"the page answers to the name {host}")
        browser.visit(path="/notes")
        expect("buy milk" in browser.text("pre.content"), "the user is still in")
    expect(journal.read_bytes() == before, "another page changed something")
    return 17


@contextlib.contextmanager
def _serving(page: str, target: str) -> Iterator[int]:
    """Serves a page at another port, whose target is a server, or at `/control` this one."""

    class Handler(BaseHTTPRequestHandler):
        def do_GET(self) -> None:
            is_page = self.path in ("/", "/control")
            self.send_response(200)
            self.send_header("Content-Type", "text/html" if is_page else "text/javascript")
            self.end_headers()
            own = f"http://127.0.0.1:{server.server_port}" if self.path == "/control" else target
            self.wfile.write(page.replace("TARGET", repr(own)).encode() if is_page else b"1")

        def log_message(self, *_: object) -> None:
            pass

    server = ThreadingHTTPServer(("127.0.0.1", 0), Handler)
    threading.Thread(target=server.serve_forever, daemon=True).start()
    try:
        yield server.server_port
    finally:
        server.shutdown()
        server.server_close()


def _quoted(path: str) -> str:
    return "".join(it if it.isalnum() else f"%{ord(it):02X}" for it in path)


def _press_all(browser: Browser) -> None:
    """Makes each element of the page notice a pointer and the focus."""
    browser.script(
        "for (const it of document.querySelectorAll('*')) for (const kind of ['mouseover', 'mouseenter', 'focus', 'load', 'error']) "
        "it.dispatchEvent(new Event(kind))"
    )


def keyboard(room: Path) -> Count:
    """A user without a pointer restores a version, and a screen reader finds roles and names."""
    journal = room / "keyboard"
    browse_stores.documents(journal)
    with visiting(room, str(journal), "--manual") as (browser, _):
        browser.visit(path="/letters/offer")
        seen = _tab_to(browser, "Restore version 3")
        expect(seen[0] == "To the contents" and "Files" in seen and "3" in seen, f"the order is {seen[:8]}")
        expect(browser.script("return getComputedStyle(document.activeElement).outlineStyle") != "none", "the focus isn't shown")
        browser.driver.switch_to.active_element.send_keys(Keys.ENTER)
        browser.until(lambda: "/ask/restore" in browser.driver.current_url, "the key leads to the question")
        _tab_to(browser, "Yes, do it")
        browser.driver.switch_to.active_element.send_keys(Keys.ENTER)
        browser.until(lambda: "holds what version 3 held" in browser.text(".notice"), "the key says yes")
        rows = browse_views.tree_of_reader(browser)
        for row in (("navigation", "Folders and files"), ("navigation", "Views"), ("slider", "Moments of change"),
                    ("heading", "/letters/offer"), ("textbox", "A moment"), ("button", "Go"), ("link", "Restore version 2")):
            expect(row in rows, f"a screen reader finds no {row}")
        expect("status" in {role for role, _ in rows}, "a screen reader isn't told what was done")
        slider = browser.one("#moments")
        browser.until(lambda: slider.get_attribute("aria-valuetext") == "Now", "the slider's place in words")
    return 13


def _tab_to(browser: Browser, words: str) -> list[str]:
    """Presses the key Tab until the focus is on an element with these words. Returns the words of all on the way."""
    seen = []
    for _ in range(120):
        browser.driver.switch_to.active_element.send_keys(Keys.TAB)
        seen.append(str(browser.script("return document.activeElement.textContent.trim() || document.activeElement.id")))
        if seen[-1] == words:
            return seen
    raise Wrong(f"no key leads to {words!r}: {seen}")


def windows(room: Path) -> Count:
    """Each view has its parts in a wide and a narrow window, dark and light, with names and contrasts."""
    journal = room / "windows"
    moments = browse_stores.documents(journal)
    count = 0
    with visiting(room, str(journal), "--manual") as (browser, _):
        for scheme in ("light", "dark"):
            browser.prefer(scheme)
            for width in (1200, NARROW):
                browser.resize(width, 860)
                for view in browse_views.views(moments):
                    browser.driver.get(browser.origin + view.address)
                    browse_views.look_at(browser, view, f"{scheme}, {width} wide")
                    count += 1
        browser.resize(1200, 860)
        count += browse_views.find_planted(browser, browse_views.views(moments)[2])
        dark = browser.script("return getComputedStyle(document.body).backgroundColor")
        browser.prefer("light")
        expect(dark != browser.script("return getComputedStyle(document.body).backgroundColor"), "dark is as light")
    return count + 1


def zones(room: Path) -> Count:
    """Times are those of the browser's zone, and not of the program's."""
    journal = room / "zones"
    browse_stores.documents(journal)
    with visiting(room, str(journal), "--manual", zone="Asia/Kolkata") as (browser, _):
        browser.visit(path="/letters/offer")
        # Saved at eight in UTC, five and a half hours earlier than in Kolkata.
        shown = browser.script("return document.querySelector('tr.chosen time').textContent")
        expect("13:30:00" in shown and "28 Nov 2026" in shown, f"08:00 UTC is shown as {shown!r}")
        title = browser.script("return document.querySelector('tr.chosen time').title")
        expect(title.startswith("2026-11-28 08:00:00 +00:00"), f"the zone of the program is {title!r}")
    return 2


def many(room: Path, files: int, versions: int) -> Count:
    """With many files and versions the first view is there within a second, and no view loads all."""
    journal = room / "many"
    browse_stores.large(journal, files, versions)
    with visiting(room, str(journal), "--manual") as (browser, program):
        wanted = {
            "/?path=/many": 200, "/?path=/one": 100, f"/?path=/many&start={files // 2}": 200, f"/?path=/one&start={versions // 2}": 100,
            "/?path=/many/file%2520000777": 2, "/": 2, "/?path=/one&version=5000&with=5001": 100,
        }
        for address, rows in wanted.items():
            best, spent = 1e9, 1e9
            for _ in range(TRIES):
                before = program.processor_seconds()
                browser.driver.get(browser.origin + address)
                spent = min(spent, program.processor_seconds() - before)
                best = min(best, float(browser.script("return performance.getEntriesByType('navigation')[0].loadEventEnd")))
                if best < MOST_MILLISECONDS / 2:
                    break
            found = len(browser.all("main table.rows tbody tr, main table.versions tbody tr"))
            expect(found == rows, f"{address} has {found} rows, not {rows}")
            expect(best < MOST_MILLISECONDS, f"{address} takes {best:.0f} milliseconds at best")
            size = int(browser.script("return document.documentElement.outerHTML.length"))
            expect(size < 500_000, f"{address} has {size} signs")
            print(f"browse: {address}: {best:.0f} milliseconds, {1000 * spent:.0f} of the program's processor, {size} signs", flush=True)
    return 3 * len(wanted)


# A mounted folder.


@contextlib.contextmanager
def mounted(room: Path) -> Iterator[Path]:
    """Mounts a folder."""
    place = room / "letters"
    place.mkdir()
    with open(room / "mount.log", "w", encoding="utf-8") as log:
        words = [sys.executable, "-m", "elephant.mount", str(place), "--journal", str(room / "letters.journal")]
        ran = subprocess.Popen(words, env=environment(), stderr=log)
    try:
        end = time.monotonic() + PATIENCE
        while not os.path.ismount(place):
            expect(time.monotonic() < end and ran.poll() is None, f"no mount: {(room / 'mount.log').read_text(encoding='utf-8')}")
            time.sleep(0.05)
        yield place
    finally:
        subprocess.run(["fusermount3", "-u", str(place)], check=False)
        ran.wait(PATIENCE)


def together(room: Path) -> Count:
    """Two pages and an editor change a mounted folder at once. No page changes what it hasn't shown, and no save is lost."""
    with mounted(room) as place:
        (place / "my letter").write_text("one\n", encoding="utf-8")
        time.sleep(1.1)
        (place / "my letter").write_text("two\n", encoding="utf-8")
        with visiting(room, "--at", str(place)) as (browser, _):
            address = {"path": "/my%20letter"}
            browser.visit(**address)
            first = browser.driver.current_window_handle
            browser.follow("Restore version 2")
            browser.driver.switch_to.new_window("tab")
            second = browser.driver.current_window_handle
            browser.visit(**address)
            browser.follow("Restore version 2")
            # An editor saves by a new file, which it renames over the old one.
            (place / "new").write_text("of the editor\n", encoding="utf-8")
            os.replace(place / "new", place / "my letter")
            browser.press("#yes")
            expect("Something has changed" in browser.text("main"), "the second page asks again")
            expect((place / "my letter").read_text(encoding="utf-8") == "of the editor\n", "the editor's save is there")
            browser.press("#yes")
            expect((place / "my letter").read_text(encoding="utf-8") == "one\n", "the second page restores")
            browser.driver.switch_to.window(first)
            browser.press("#yes")
            expect("Something has changed" in browser.text("main"), "the first page asks again")
            past = place / ".elephant/versions/my letter"
            versions = [Path(past, it).read_text(encoding="utf-8") for it in sorted(os.listdir(past), key=int)]
            expect(versions == ["", "one\n", "two\n", "of the editor\n", "one\n"], f"the versions are {versions}")
            browser.driver.switch_to.window(second)
            browser.visit(**address)
            expect(browser.text("tr.chosen th") == "5", "the second page shows the newest version")
            count = _folder_of_mount(browser, place)
    return 7 + count


def _folder_of_mount(browser: Browser, place: Path) -> Count:
    """Restores a folder through the mount, which renames a file back."""
    (place / "work").mkdir()
    for name in ("plan", "bill"):
        (place / "work" / name).write_text(f"{name}\n", encoding="utf-8")
    time.sleep(1.1)
    moment = int(time.time())
    time.sleep(1.1)
    os.rename(place / "work/plan", place / "work/plan.locked")
    (place / "work/bill").write_text("pay\n", encoding="utf-8")
    browser.visit(path="/work", at=moment)
    browser.press("#restore-folder")
    expect("rename work/plan.locked work/plan" in browser.text("ul.tells"), "the mount's plan is shown")
    browser.say_yes()
    expect(sorted(os.listdir(place / "work")) == ["bill", "plan"], "the names are those of then")
    expect((place / "work/bill").read_text(encoding="utf-8") == "bill\n", "the content is that of then")
    browser.press("p.undo a")
    browser.say_yes()
    expect((place / "work/bill").read_text(encoding="utf-8") == "pay\n" and os.path.exists(place / "work/plan.locked"), "the undo")
    return 4


# Pictures for the page docs/BROWSE.md.


def pictures(room: Path, into: Path) -> Count:
    """Makes the pictures of docs/BROWSE.md."""
    journal = room / "pictures.journal"
    moments = browse_stores.documents(journal)
    with visiting(room, str(journal), "--manual") as (browser, _):
        for name, address, height, scheme in (
            ("file", "/?path=/letters/offer&version=3&with=4", 860, "light"),
            ("folder", f"/?path=/bills/2026&at={moments['before']}&deleted=1", 720, "light"),
            ("policy", "/policy?path=/letters/offer&kind=one#preview", 860, "dark"),
        ):
            browser.prefer(scheme)
            browser.resize(1200, height)
            browser.driver.get(browser.origin + address)
            time.sleep(0.3)
            browser.shot(into / f"browse_{name}.png")
    return 3
