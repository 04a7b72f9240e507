"""Checks the Rust crate as it is packed: a program builds with it by pkg-config and by a variable, and else learns what to do."""

import re
import shutil
import tarfile
from collections.abc import Iterator
from pathlib import Path

from gate import building, libraries
from gate.building import OUT
from package.trying import Lacking, Wrong, clean_environment, expect, outcome, run

MANIFEST = """[package]
name = "notes"
version = "0.1.0"
edition = "2021"

[dependencies]
elephant = {{ path = "{path}" }}
"""
PROGRAM = """use elephant::{at, Store};

fn main() -> Result<(), Box<dyn std::error::Error>> {
    let store = Store::new()?;
    store.save("/notes", b"one")?;
    store.tick(60)?;
    store.save("/notes", b"two")?;
    println!("{:?} {:?}", store.read("/notes")?, store.read(at("/notes", 59))?);
    Ok(())
}
"""
PRINTED = f"{list(b'two')} {list(b'one')}\n"


def unpack(packed: Path, folder: Path, place: str = "") -> Path:
    """Unpacks the crate beside a program that depends on it, and returns the program's folder. `place` is where the folder is used."""
    with tarfile.open(packed) as archive:
        archive.extractall(folder)
    program = folder / "notes"
    (program / "src").mkdir(parents=True)
    (program / "Cargo.toml").write_text(MANIFEST.format(path=f"{place or folder}/{packed.name.removesuffix('.crate')}"), encoding="utf-8")
    (program / "src" / "main.rs").write_text(PROGRAM, encoding="utf-8")
    return program


def check(packed: Path, folder: Path) -> Iterator[str]:
    """Checks the crate, and yields a line for each way to build. The program that was built by pkg-config is `notes` in the folder."""
    if not shutil.which("cargo"):
        raise Lacking("there is no cargo, so the Rust crate wasn't built")
    program, build = unpack(packed, folder), ["cargo", "build", "--quiet", "--offline"]
    nowhere = {"PKG_CONFIG_LIBDIR": str(folder / "nowhere"), "PKG_CONFIG_PATH": ""}
    status, output, errors = outcome(build, folder=program, environment=clean_environment(**nowhere))
    wanted = r"the C library of Elephant isn't here: .*\n.*install Elephant's package, or .* set ELEPHANT_LIB_DIR"
    if status == 0 or not re.search(wanted, output + errors):
        raise Wrong(f"without a library the build ends with status {status}: {errors[-600:]}")
    yield "without a library the build says what to do"
    run(build, folder=program, environment=clean_environment(**nowhere, ELEPHANT_LIB_DIR=str(OUT)))
    built = program / "target" / "debug" / "notes"
    expect(run([built]), PRINTED, "what the Rust program prints")
    yield "by ELEPHANT_LIB_DIR a program builds and runs"
    if not shutil.which("pkg-config"):
        raise Lacking("there is no pkg-config, so the crate wasn't built by it")
    prefix = folder / "prefix"
    for path, what in libraries.installed(prefix).items():
        libraries.lay(prefix / path, what)
    known = {"PKG_CONFIG_PATH": str(prefix / "lib" / "pkgconfig")}
    run([*build, "--target-dir", folder / "other"], folder=program, environment=clean_environment(**known))
    shutil.copy(folder / "other" / "debug" / "notes", folder / "program")
    expect(run([folder / "program"]), PRINTED, "what the Rust program prints")
    yield "by pkg-config a program builds and runs"
    config = prefix / "lib" / "pkgconfig" / "elephant.pc"
    config.write_text(config.read_text(encoding="utf-8").replace(f"Version: {building.version()}", "Version: 0.0.1"), encoding="utf-8")
    status, _, errors = outcome([*build, "--target-dir", folder / "older"], folder=program, environment=clean_environment(**known))
    if status == 0 or "isn't here" not in errors:
        raise Wrong(f"with an older library the build ends with status {status}: {errors[-600:]}")
    yield "an older library isn't taken"
