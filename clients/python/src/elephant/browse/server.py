"""The page: which address shows what. It only reads what a request asks for, and each change is a form that comes back."""

from __future__ import annotations

import secrets
import threading
from collections import OrderedDict
from collections.abc import Callable
from importlib import resources
from typing import Any, Optional, Union
from urllib.parse import urlencode

from flask import Flask, Response, abort, make_response, redirect, render_template, request
from werkzeug.exceptions import HTTPException

from .. import DirectoryStat, ElephantError, FileStat, Forgotten, Limits, NoHistory, Policy, read_time
from ..keeping import told_time
from . import contents, forgetting, wording
from .acts import FIELDS, Acts, Changed, Question, digest
from .door import CONTENT_POLICY, HEADERS, Door
from .files import live_file, now_of, policy_of, preview, version_rows
from .sources import ChangeRefused, Source
from .trees import crumbs, deleted_rows, find, folder_rows, is_path, told, tree

# The most bytes of a form, of a path, and of what else is given; and the most notices that wait to be shown.
MOST_FORM, MOST_PATH, MOST_WORD, MOST_NOTICES = 64 << 10, 32 * 65 + 1, 200, 100
_FILES = {"browse.css": "text/css", "browse.js": "text/javascript", "icon.svg": "image/svg+xml"}
Answer = Union[str, Response, tuple[str, int]]


class Page:
    """The answers to requests. `limits` are those of the store."""

    def __init__(self, source: Source, door: Door, limits: Optional[Limits] = None, announce: Any = None) -> None:
        self.source, self.store, self.door = source, source.store, door
        self.acts, self.limits = Acts(source), limits or Limits()
        self._announce = announce
        self._notices: OrderedDict[str, str] = OrderedDict()
        self._lock = threading.Lock()
        self._files = {name: (resources.files("elephant.browse") / "static" / name).read_bytes() for name in _FILES}

    # Before and after each request.

    def check(self) -> Optional[Answer]:
        """Refuses a request that isn't one of this page's; lets in who has the key."""
        key = request.args.get("key") if request.method == "GET" and request.path == "/" else None
        fault = self.door.fault_of(request.method, request.headers, key is not None)
        if fault is None and not self.door.is_own_user(request.environ.get("REMOTE_PORT", "")):
            fault = "the request comes from another user's program"
        if fault is not None:
            return self.refused(403, fault)
        if key is not None:
            return self._enter(key)
        if not self.door.has_come_in(request.cookies.get(self.door.cookie)):
            return self.refused(403, "the page opens by the address that the program printed, which opens once")
        if request.method == "POST" and not self.door.is_token(request.form.get("token", "")):
            return self.refused(403, "the form isn't one of this page's")
        self.source.refresh()
        return None

    def _enter(self, key: str) -> Answer:
        """Gives who has the key the cookie. The page that follows is asked for by this one, so that the cookie comes along."""
        if not self.door.turn(key):
            return self.refused(403, "this address has been used, or is of another run: take the one that the program printed last")
        if self._announce is not None:
            self._announce(self.door.entrance)
        answer = make_response(render_template("enter.html"))
        answer.set_cookie(self.door.cookie, self.door.session, httponly=True, samesite="Strict", path="/")
        return answer

    @staticmethod
    def seal(answer: Response) -> Response:
        """Gives an answer the headers that each has."""
        for name, value in HEADERS.items():
            answer.headers.setdefault(name, value)
        return answer

    def refused(self, status: int, why: str) -> tuple[str, int]:
        return render_template("refused.html", why=why, status=status), status

    # What a request asks for.

    @staticmethod
    def _word(name: str, most: int = MOST_WORD) -> str:
        word = request.args.get(name, "")
        if len(word) > most:
            abort(400)
        return word

    def _path(self) -> bytes:
        path = (self._word("path", MOST_PATH) or "/").encode("utf-8", "replace")
        if not is_path(path):
            abort(400)
        return path

    def _number(self, name: str) -> Optional[int]:
        word = self._word(name, 18)
        if word and not (word.isascii() and word.isdigit()):
            abort(400)
        return int(word) if word else None

    def _at(self) -> Optional[int]:
        """Returns the moment to look at, or None for now."""
        at = self._number("at")
        return None if at is None else min(at, int(self.store.now))

    def common(self, path: bytes, at: Optional[int]) -> dict[str, Any]:
        """Returns what each page has: the tree, the slider and the notice."""
        notes = self.store.notes
        count = len(notes.moments)
        wants_deleted = bool(self._word("deleted"))
        # The tree of now is that of the last change.
        before, after = notes.around(at if at is not None else int(notes.moments[-1]) if count else 0)
        return {
            "source": self.source, "path": path.decode(), "name": told(path), "crumbs": crumbs(path), "at": at,
            "tree": tree(self.store, path, at, wants_deleted), "moments": count,
            "index": count if at is None else max(notes.index_at(at) - 1, 0),
            "before": before, "after": after, "wants_deleted": wants_deleted,
            "undoable": self.acts.done[-1].what if self.acts.done else None, "notice": self._notice(),
            "clock_fault": self.store.clock_fault,
        }

    def _notice(self) -> Optional[str]:
        with self._lock:
            return self._notices.pop(self._word("notice"), None)

    def _noted(self, text: str) -> str:
        """Keeps a notice for the page that is shown next, and returns its name."""
        name = secrets.token_urlsafe(8)
        with self._lock:
            self._notices[name] = text
            while len(self._notices) > MOST_NOTICES:
                self._notices.popitem(last=False)
        return name

    # Files and folders.

    def look(self) -> Answer:
        path, at = self._path(), self._at()
        try:
            found = find(self.store, path, at)
        except Forgotten:
            return self._forgotten(path, at)
        if found is None:
            return render_template("nothing.html", **self.common(path, at)), 404
        return self._folder(path, at, found) if isinstance(found, DirectoryStat) else self._file(path, at, found)

    def _forgotten(self, path: bytes, at: Optional[int]) -> Answer:
        part = version_rows(self.store, path, at, self._number("start") or 0)
        common = self.common(path, at)
        live, is_free = live_file(self.store, path, at), find(self.store, path, None) is None
        return render_template("file.html", **common, stat=None, part=part, live=live, is_free=is_free, chosen=None)

    def _folder(self, path: bytes, at: Optional[int], found: DirectoryStat) -> Answer:
        part = folder_rows(self.store, path, at, self._number("start") or 0)
        common = self.common(path, at)
        deleted = None
        if common["wants_deleted"]:
            deleted = deleted_rows(self.store, path, found.directory, self._number("gone") or 0)
        return render_template("folder.html", **common, part=part, deleted=deleted, default=wording.told_policy(found.default))

    def _file(self, path: bytes, at: Optional[int], found: FileStat) -> Answer:
        part = version_rows(self.store, path, at, self._number("start") or 0)
        number = self._number("version") or found.version
        common = self.common(path, at)
        chosen = self._chosen(path, at, number)
        live = live_file(self.store, path, at)
        return render_template(
            "file.html", **common, stat=found, part=part, live=live, chosen=chosen, policy=wording.told_policy(found.policy),
            is_free=find(self.store, path, None) is None, compared=self._compared(path, at, chosen, self._number("with")),
        )

    def _content(self, path: bytes, at: Optional[int], number: int) -> bytes:
        """Returns a version's content. If the path is another file's now, a moment has to find it."""
        if live_file(self.store, path, at) is not None:
            return self.store.read(path, version=number)
        row = self.store.version_numbered(path, at, number)
        if row is None:
            raise Forgotten(told(path))
        moment = int(row.closed) if row.ended is None else max(int(row.ended) - 1, int(row.closed))
        found = find(self.store, path, moment)
        if not isinstance(found, FileStat) or found.version != number:
            raise Forgotten(f"{told(path)}: no moment finds version {number}")
        return self.store.read(path, at=moment)

    def _chosen(self, path: bytes, at: Optional[int], number: int) -> dict[str, Any]:
        """Returns a version's content as the page shows it."""
        row = self.store.version_numbered(path, at, number)
        try:
            content = self._content(path, at, number)
        except ElephantError as fault:
            return {"number": number, "row": row, "kind": "lost", "why": str(fault)}
        text = contents.text_of(content)
        found: dict[str, Any] = {"number": number, "row": row, "content": content, "length": len(content), "text": text}
        if contents.image_type(content) is not None:
            return {**found, "kind": "image", "alt": f"version {number} of {told(path)}, an image"}
        if text is not None:
            part, is_all = contents.shortened(text)
            return {**found, "kind": "text", "shown": wording.shown_lines(part), "is_all": is_all}
        return {**found, "kind": "bytes", "lines": list(contents.hex_lines(content)), "is_all": len(content) <= contents.MOST_HEX}

    def _compared(self, path: bytes, at: Optional[int], chosen: dict[str, Any], other: Optional[int]) -> Optional[dict[str, Any]]:
        """Returns how the chosen version differs from an other one."""
        if other is None or chosen["kind"] == "lost":
            return None
        second = self._chosen(path, at, other)
        if second["kind"] == "lost":
            return {"other": other, "kind": "lost", "why": second["why"]}
        found = {"other": other, "length": second["length"], "offset": contents.first_difference(second["content"], chosen["content"])}
        if chosen["text"] is None or second["text"] is None:
            return {**found, "kind": "bytes", "lines": list(contents.hex_around(second["content"], chosen["content"], found["offset"]))}
        rows = contents.compared(second["text"], chosen["text"])
        shown = None if rows is None else [it._replace(text=wording.shown_lines(it.text)) for it in rows]
        return {**found, "kind": "text", "rows": shown}

    def content(self) -> Answer:
        """Answers with a content as bytes to be saved. No browser takes it for a page."""
        content = self._asked_content()
        answer = make_response(content)
        answer.headers["Content-Type"] = "application/octet-stream"
        answer.headers["Content-Disposition"] = f'attachment; filename="version-{self._number("version") or 0}.bin"'
        answer.headers["Content-Security-Policy"] = CONTENT_POLICY
        return answer

    def image(self) -> Answer:
        """Answers with an image, by the type that its bytes have."""
        content = self._asked_content()
        kind = contents.image_type(content)
        if kind is None:
            abort(404)
        answer = make_response(content)
        answer.headers["Content-Type"] = kind
        answer.headers["Content-Security-Policy"] = CONTENT_POLICY
        return answer

    def _asked_content(self) -> bytes:
        number = self._number("version")
        if number is None:
            abort(400)
        try:
            return self._content(self._path(), self._at(), number)
        except ElephantError:
            abort(404)

    # Moments.

    def moment(self) -> Answer:
        """Answers with the moment of a place of the slider; the last place is now."""
        moments, index = self.store.notes.moments, self._number("index") or 0
        answer = make_response({"moment": int(moments[index]) if index < len(moments) else None})
        return answer

    def go(self) -> Answer:
        """Shows the moment that was typed."""
        typed, path = self._word("when"), self._path()
        words = {"path": path.decode(), **({"deleted": "1"} if self._word("deleted") else {})}
        if typed.strip():
            try:
                words["at"] = str(read_time(typed, now_of(self.store)).moment)
            except ElephantError as fault:
                words["notice"] = self._noted(str(fault))
        return redirect(f"/?{urlencode(words)}", 303)

    # Other views.

    def soon(self) -> Answer:
        within = self._word("within") or "week"
        if within not in forgetting.WITHIN:
            abort(400)
        start = self._number("start") or 0
        rows, total = forgetting.soon(self.store, self.acts.places, forgetting.WITHIN[within], start)
        common = self.common(b"/", None)
        return render_template(
            "soon.html", **common, rows=rows, total=total, start=start, within=within, spans=list(forgetting.WITHIN),
            most=forgetting.MOST_ROWS,
        )

    def gone(self) -> Answer:
        start = self._number("start") or 0
        try:
            rows, total = forgetting.gone(self.store, start)
        except NoHistory:
            rows, total = None, 0
        return render_template("gone.html", **self.common(b"/", None), rows=rows, total=total, start=start, most=forgetting.MOST_ROWS)

    def space(self) -> Answer:
        return render_template(
            "space.html", **self.common(b"/", None), usage=self.store.usage(), used=forgetting.used(self.store, self.limits)
        )

    def kept(self) -> Answer:
        return render_template("kept.html", **self.common(b"/", None), rows=forgetting.kept_moments(self.store))

    def policy(self) -> Answer:
        """Shows the policy of a file or a folder, and what another one would forget."""
        path, scope = self._path(), self._word("scope") or "all"
        found = find(self.store, path, None)
        if found is None:
            abort(404)
        word, fault, seen = self._asked_policy(), None, None
        if word:
            try:
                paths = self.acts.policy_paths(path, scope == "all")
                seen = preview(self.store, paths, Policy.of(word), self._number("start") or 0)
            except (ElephantError, ChangeRefused) as lack:
                fault, word = str(lack), ""
        present = policy_of(self.store, path)
        return render_template(
            "policy.html", **self.common(path, None), present=wording.told_policy(present), present_word=present.word, word=word,
            fault=fault, preview=seen, wanted=wording.told_policy(Policy.of(word)) if word else None,
            is_folder=isinstance(found, DirectoryStat), scope=scope, asked=request.args,
        )

    def _asked_policy(self) -> str:
        """Returns the word of the policy that the form has, or an empty text."""
        kind = self._word("kind")
        if kind in ("one", "all"):
            return kind
        if kind == "safe":
            days, floor = self._number("days") or 0, self._number("floor") or 0
            return f"safe:{days * 86_400}/{floor}" if floor else f"safe:{days * 86_400}"
        if kind == "standard":
            return "landmarks:86400/3600,604800/86400,2592000/604800"
        if kind == "long":
            return "landmarks:604800/3600,2592000/86400,31536000/604800"
        return self._word("word")

    # Acts.

    def ask(self, kind: str) -> Answer:
        """Asks what an act would change, by a form that does it."""
        fields = {name: " ".join(request.args.getlist(name)) for name in request.args if name in FIELDS}
        try:
            question = self.acts.question(kind, fields)
        except KeyError:
            abort(404)
        except ChangeRefused as fault:
            return self._cannot(kind, str(fault))
        return self._asked(kind, question, fields)

    def _asked(self, kind: str, question: Question, fields: dict[str, str], has_changed: bool = False) -> Answer:
        return render_template(
            "ask.html", **self.common(fields.get("path", "/").encode("ascii"), None), kind=kind, question=question, fields=fields,
            token=self.door.token, state=digest(question.state), has_changed=has_changed, fault=self.source.fault,
        )

    def _cannot(self, kind: str, why: str) -> Answer:
        return render_template("cannot.html", **self.common(b"/", None), kind=kind, why=wording.shown(why)), 409

    def do(self, kind: str) -> Answer:
        """Does an act, and shows what it has changed."""
        fields = {name: value for name, value in request.form.items() if name in FIELDS}
        try:
            told_then, question = self.acts.do(kind, fields, request.form.get("state", ""))
        except KeyError:
            abort(404)
        except Changed:
            try:
                return self._asked(kind, self.acts.question(kind, fields), fields, True)
            except ChangeRefused as fault:
                return self._cannot(kind, str(fault))
        except ChangeRefused as fault:
            return self._cannot(kind, str(fault))
        words = dict(question.back)
        view = words.pop("view", "")
        return redirect(f"/{view}?{urlencode({**words, 'notice': self._noted(told_then)})}", 303)

    def file(self, name: str) -> Answer:
        """Answers with a script or a style of the package."""
        if name not in self._files:
            abort(404)
        answer = make_response(self._files[name])
        answer.headers["Content-Type"] = f"{_FILES[name]}; charset=utf-8"
        return answer


def application(page: Page) -> Flask:
    """Returns the application that answers by a page."""
    app = Flask("elephant.browse", static_folder=None)
    app.config.update(MAX_CONTENT_LENGTH=MOST_FORM, TRAP_HTTP_EXCEPTIONS=False)
    app.jinja_env.autoescape = True
    app.jinja_env.filters.update(when=wording.when, size=wording.size, told=told_time, shown=wording.shown)
    app.before_request(page.check)
    app.after_request(page.seal)
    app.register_error_handler(HTTPException, lambda fault: page.refused(fault.code or 500, fault.name))
    app.register_error_handler(ElephantError, lambda fault: page.refused(409, str(fault)))
    views: dict[str, Callable[..., Answer]] = {
        "/": page.look, "/content": page.content, "/image": page.image, "/moment": page.moment, "/go": page.go, "/soon": page.soon,
        "/gone": page.gone, "/space": page.space, "/kept": page.kept, "/policy": page.policy, "/ask/<kind>": page.ask,
        "/static/<name>": page.file,
    }
    for address, view in views.items():
        app.add_url_rule(address, address, view, methods=["GET"])
    app.add_url_rule("/do/<kind>", "do", page.do, methods=["POST"])
    return app
