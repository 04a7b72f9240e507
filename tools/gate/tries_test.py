"""Made-up outputs of `rt try --test`, and made-up crates of tests: something is wrong with each but the first, and has to be found."""

from __future__ import annotations

import subprocess
import tempfile
from collections.abc import Iterator
from pathlib import Path
from typing import NamedTuple

from gate import building, tries
from gate.tries import Tried

TESTS = ["lists::one", "lists::two"]
PRINTED = """tests: 2
test lists::one ... ok
test lists::two ... ok
test result: ok. 2 passed; 0 failed; 0 ignored; 0 filtered out
"""
SAID = "races: not looked for, since a kit has no ThreadSanitizer\nrun=ended status=0 runners=1 races=unchecked proved=no\n"
GOOD = Tried(0, PRINTED, SAID)
# Each is GOOD but for one thing.
OUTPUTS = {
    "a status": GOOD._replace(status=1),
    "no output": GOOD._replace(printed=""),
    "no last line": GOOD._replace(said=SAID.splitlines(keepends=True)[0]),
    "a line after the last": GOOD._replace(said=f"{SAID}error: no memory\n"),
    "a fault": GOOD._replace(said=SAID.replace("run=ended status=0", "run=fault")),
    "a test that failed": GOOD._replace(printed=PRINTED.replace("two ... ok", "two ... FAILED")),
    "a test that is ignored": GOOD._replace(printed=PRINTED.replace("two ... ok", "two ... ignored")),
    "a count of ignored tests": GOOD._replace(printed=PRINTED.replace("0 ignored", "1 ignored")),
    "a test that didn't run": GOOD._replace(printed=PRINTED.replace("test lists::two ... ok\n", "")),
    "a test that ran twice": GOOD._replace(printed=PRINTED.replace("test lists::two", "test lists::one")),
    "another test": GOOD._replace(printed=PRINTED.replace("lists::two", "lists::three")),
    "fewer tests": GOOD._replace(printed=PRINTED.replace("tests: 2", "tests: 1")),
    "fewer that passed": GOOD._replace(printed=PRINTED.replace("2 passed", "1 passed")),
    "no closing line": GOOD._replace(printed=PRINTED.rpartition("test result")[0]),
}


class Planted(NamedTuple):
    """A made-up crate: its source, its tests that have to be found to fail, and one that passes."""

    source: str
    failing: list[str]
    passing: list[str]
    longest: int = 60


MODULE = """#[cfg(test)]
mod planted {{
    use std::sync::Wait;
    use std::test::Fail;

{}}}
"""
FAILING = """    #[test]
    fn passes(rt: HostRuntime) {
        assert_eq!(rt; 1 + 1, 2);
    }

    #[test]
    fn expects_another_sum(rt: HostRuntime) {
        assert_eq!(rt; 1 + 1, 3);
    }

    #[test]
    fn reads_past_a_row(rt: HostRuntime) -> Result<(), Fail> {
        let row: Vec<u8> = Vec::new(rt.alloc());
        assert_eq!(rt; row[0], 0);
        Ok(())
    }

    #[test]
    fn returns_an_error(_rt: HostRuntime) -> Result<(), Fail> {
        Err(Fail::from("an error"))
    }

    #[test]
    fn never_ends(rt: HostRuntime) {
        for _ in rt.forever() {}
    }
"""
REFUSED = """    #[test]
    fn compares_a_number_with_a_text(rt: HostRuntime) {
        assert_eq!(rt; 1, "1");
    }
"""
PLANTED = {
    "tests that fail": Planted(
        MODULE.format(FAILING), [f"planted::{it}" for it in ("expects_another_sum", "reads_past_a_row", "returns_an_error", "never_ends")],
        ["planted::passes"], 10,
    ),
    "a source that isn't accepted": Planted(MODULE.format(REFUSED), [], ["planted::compares_a_number_with_a_text"]),
    "no tests": Planted("//! Nothing.\n", [], []),
}


def overlooked() -> Iterator[str]:
    """Yields a line for each made-up output in which nothing is found to be wrong, and one if something is found in the good one."""
    for found in tries.faults(GOOD, TESTS):
        yield f"in a made-up output that is good: {found}"
    if not list(tries.faults(GOOD, [])):
        yield "overlooked in a made-up output: that the sources have no tests"
    for name, tried in OUTPUTS.items():
        if not list(tries.faults(tried, TESTS)):
            yield f"overlooked in a made-up output: {name}"


def overlooked_in(name: str) -> list[str]:
    """Runs a made-up crate, and returns a line if it isn't found out."""
    planted = PLANTED[name]
    with tempfile.TemporaryDirectory(prefix="unproved-tests-") as room:
        building.lay_out(Path(room), set(), ["planted_tests:"])
        folder = Path(room) / "crates" / "planted_tests"
        (folder / "src").mkdir(parents=True)
        (folder / "src" / "lib.rt").write_text(planted.source, encoding="utf-8")
        subprocess.run(["rt", "fmt"], cwd=folder, check=False, **building.PIPES)
        tried = tries.try_tests(folder, planted.longest)
    found = list(tries.faults(tried, [*planted.failing, *planted.passing]))
    results = {it[1]: it[2] for it in map(tries.RESULT.fullmatch, tried.printed.splitlines()) if it}
    wanted = {it: "FAILED" for it in planted.failing} | ({it: "ok" for it in planted.passing} if planted.failing else {})
    if found and tried.status and results == wanted:
        return []
    return [f"a made-up crate with {name} isn't found out: {found}\n{tried.text()}"]
