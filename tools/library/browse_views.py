"""What each view of the page must have: its parts, and what eyes, a keyboard and a screen reader need of it."""

from typing import NamedTuple

from library.browser import Browser, expect

# What every view shows.
COMMON = (".brand", "ul.views a", "#moments", "#moment-shown", "#when", "nav.tree a", "main h1")
# The least contrast of a text with what is behind it (of the guidelines for contents of the web).
CONTRAST = 4.5
CONTRASTS = """
const parts = (it) => (it.match(/[\\d.]+/g) || []).map(Number);
const light = (rgb) => {
  const [r, g, b] = rgb.map((it) => { it /= 255; return it <= 0.03928 ? it / 12.92 : Math.pow((it + 0.055) / 1.055, 2.4); });
  return 0.2126 * r + 0.7152 * g + 0.0722 * b;
};
const behind = (it) => {
  for (; it; it = it.parentElement) {
    const found = parts(getComputedStyle(it).backgroundColor);
    if (found.length < 4 || found[3] > 0) { return found.slice(0, 3); }
  }
  return [255, 255, 255];
};
const wrong = [];
for (const it of document.querySelectorAll("body *")) {
  const own = [...it.childNodes].some((node) => node.nodeType === 3 && node.textContent.trim());
  const box = it.getBoundingClientRect();
  if (!own || !box.width || !box.height || it.closest(".for, .skip, svg")) { continue; }
  const [a, b] = [light(parts(getComputedStyle(it).color).slice(0, 3)), light(behind(it))];
  const ratio = (Math.max(a, b) + 0.05) / (Math.min(a, b) + 0.05);
  if (ratio < arguments[0]) { wrong.push(it.tagName + " " + it.textContent.trim().slice(0, 30) + " " + ratio.toFixed(2)); }
}
return wrong;
"""
# Each element that a user may press or fill, and whether it has a name for a screen reader.
NAMES = """
const wrong = [];
const labels = (it) => [...(it.labels || [])].map((label) => label.textContent).join("").trim();
const named = (it) => it.getAttribute("aria-label") || it.textContent.trim() || it.alt || labels(it);
const pressed = "a, button, input:not([type=hidden]), select, textarea, img, meter:not([aria-hidden]), svg[role=img], [tabindex='0']";
for (const it of document.querySelectorAll(pressed)) {
  if (!named(it)) { wrong.push(it.outerHTML.slice(0, 120)); }
}
const ids = [...document.querySelectorAll("[id]")].map((it) => it.id);
for (const it of ids) { if (ids.indexOf(it) !== ids.lastIndexOf(it)) { wrong.push("twice: " + it); } }
for (const it of document.querySelectorAll("table")) {
  if (!it.caption) { wrong.push("a table without a caption"); }
  if (![...it.querySelectorAll("thead th")].every((th) => th.scope === "col")) { wrong.push("a head without a scope"); }
}
for (const it of document.querySelectorAll("[aria-describedby]")) {
  if (!document.getElementById(it.getAttribute("aria-describedby"))) { wrong.push("described by nothing"); }
}
const heads = [...document.querySelectorAll("h1, h2, h3")].map((it) => Number(it.tagName[1]));
if (heads[0] !== 1 || heads.filter((it) => it === 1).length !== 1) { wrong.push("headings " + heads); }
for (let at = 1; at < heads.length; at++) { if (heads[at] > heads[at - 1] + 1) { wrong.push("headings " + heads); } }
for (const [what, count] of [["main", 1], ["header", 1], ["nav[aria-label]", 2], ["html[lang]", 1], ["title", 1]]) {
  if (document.querySelectorAll(what).length < count) { wrong.push("no " + what); }
}
return wrong;
"""
# Parts of a page that lie over each other or beyond its sides. Links of one line may touch.
BOXES = """
const wrong = [];
const width = document.documentElement.clientWidth;
if (document.scrollingElement.scrollWidth > width + 1) { wrong.push("the page is wider than the window"); }
for (const it of document.querySelectorAll("a, button, input:not([type=hidden]), h1, h2, caption, td, th, pre")) {
  const box = it.getBoundingClientRect();
  if (!box.width || !box.height || it.closest(".skip, thead, .line, pre, nav.tree")) { continue; }
  if (box.left < -1 || box.right > width + 1) { wrong.push("beyond a side: " + it.outerHTML.slice(0, 80)); }
}
const parts = [...document.querySelectorAll("header, nav.tree, main")].map((it) => [it, it.getBoundingClientRect()]);
for (const [a, one] of parts) for (const [b, two] of parts) {
  const apart = one.right <= two.left + 1 || two.right <= one.left + 1 || one.bottom <= two.top + 1 || two.bottom <= one.top + 1;
  if (a !== b && !apart) { wrong.push(a.tagName + " lies over " + b.tagName); }
}
return wrong;
"""
MISSING = """
const wrong = [];
for (const what of arguments[0]) {
  const found = [...document.querySelectorAll(what)];
  if (!found.some((it) => it.getBoundingClientRect().width && it.getBoundingClientRect().height)) { wrong.push(what); }
}
return wrong;
"""


class View(NamedTuple):
    """A view: its name, its address, and the parts that it has beside the common ones."""

    name: str
    address: str
    parts: tuple[str, ...]


def views(moments: dict[str, int]) -> list[View]:
    """Returns the views of a user's documents."""
    then = moments["before"]
    return [
        View("folder", "/?path=/bills/2026&deleted=1", ("#keep", "#policy", "#hide-deleted", "table.rows a", "table.deleted a")),
        View("then", f"/?path=/bills/2026&at={then}", ("#restore-folder", "#present", "#later", "table.rows time")),
        View("file", "/?path=/letters/offer", ("table.versions svg.bar", "tr.chosen", "pre.content", "h2#content")),
        View("difference", "/?path=/letters/offer&version=3&with=4", ("table.difference ins", "table.difference del", "h2#difference")),
        View("image", "/?path=/logo.png", ("img.content",)),
        View("bytes", "/?path=/bills/2026/january", ("pre.hex",)),
        View("soon", "/soon?within=year", ("table.rows th a", "main ul.acts a[aria-current]")),
        View("gone", "/gone", ("main code",)),
        View("kept", "/kept", ("main p",)),
        View("space", "/space", ("meter",)),
        View("policy", "/policy?path=/letters/offer&kind=one", ("table.horizons", "table.both svg.bar", "tr.lost", "#change", "#look")),
        View("ask", f"/ask/folder?path=/bills/2026&at={then}", ("#yes", "#no", "ul.tells li")),
        View("nothing", "/?path=/none", ("main p",)),
        View("cannot", "/ask/undelete?path=/notes", ("main p[role=alert]",)),
    ]


def look_at(browser: Browser, view: View, how: str) -> None:
    """Looks whether a view has its parts, in the window as it is."""
    where = f"{view.name}, {how}"
    missing = browser.script(MISSING, [*COMMON, *view.parts])
    expect(missing == [], f"{where}: it lacks {missing}")
    for what, script in (("names", NAMES), ("boxes", BOXES), ("contrasts", CONTRASTS)):
        wrong = browser.script(script, CONTRAST)
        expect(wrong == [], f"{where}: {what}: {wrong[:5]}")


# Faults of a page, each with the script that has to find it.
PLANTED = (
    (NAMES, "document.querySelector('main').append(document.createElement('button'))"),
    (NAMES, "document.querySelector('main').insertAdjacentHTML('beforeend', '<p id=main></p>')"),
    (NAMES, "document.querySelector('h1').outerHTML = '<h3>x</h3>'"),
    (BOXES, "document.querySelector('h1').insertAdjacentHTML('afterend', '<pre class=planted>' + 'x'.repeat(999) + '</pre>'); "
            "document.querySelector('.planted').style.width = '5000px'"),
    (BOXES, "document.querySelector('main').style.position = 'absolute'; document.querySelector('main').style.top = '0'; "
            "document.querySelector('main').style.left = '0'"),
    (CONTRASTS, "document.querySelector('h1').style.color = '#777777'; document.querySelector('h1').style.background = '#888888'"),
    (MISSING, "document.querySelector('#when').remove()"),
)


def find_planted(browser: Browser, view: View) -> int:
    """Plants faults into a view, and looks whether each is found. Returns how many there are."""
    for script, fault in PLANTED:
        browser.driver.get(browser.origin + view.address)
        word: object = CONTRAST if script == CONTRASTS else [*COMMON, *view.parts]
        expect(browser.script(script, word) == [], f"{view.name}: a fault is found that nobody planted")
        browser.script(fault)
        expect(browser.script(script, word) != [], f"what is planted isn't found: {fault}")
    return len(PLANTED)


def tree_of_reader(browser: Browser) -> list[tuple[str, str]]:
    """Returns what a screen reader gets: the role and the name of each element that has one."""
    found = browser.driver.execute_cdp_cmd("Accessibility.getFullAXTree", {})["nodes"]
    rows = []
    for it in found:
        if not it.get("ignored") and "role" in it:
            rows.append((str(it["role"].get("value", "")), str(it.get("name", {}).get("value", ""))))
    return rows
