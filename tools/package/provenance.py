"""PROVENANCE.json: what the packages were made of, how that was proved, and the hash of each file made."""

import hashlib
import json
from pathlib import Path

from gate import building, libraries
from gate.building import ROOT
from package import sources


def hash_of(path: Path) -> str:
    return hashlib.sha256(path.read_bytes()).hexdigest()


def of_product(product: building.Product) -> dict[str, object]:
    """Returns what the stamp of a product says, with the hash of each file that was built."""
    stamp = product.read_stamp()
    assert stamp, "it was found before"
    return {
        "commit": stamp.commit, "toolchain": stamp.kit, "proved on": stamp.day, "crates": len(building.with_below([product.crate])),
        "built": {str(it.relative_to(ROOT)): hash_of(it) for it in product.files}, "sources": sorted(stamp.sums),
    }


def report(made: list[Path]) -> str:
    """Returns the file for these packages."""
    facts = {
        "version": building.version(), "commit": building.commit(), "uncommitted": sources.uncommitted(),
        "program": of_product(building.BUILT_PROGRAM), "library": of_product(libraries.BUILT_LIBRARY), "gate": building.read_counted(),
        "made": {it.name: hash_of(it) for it in made}, "files": {it: hash_of(ROOT / it) for it in sources.files()},
    }
    return json.dumps(facts, indent=1) + "\n"
