"""What an installation has: the program, the library, the manual pages and the completions, by their paths below a prefix."""

from pathlib import Path

from gate import building, libraries
from gate.building import ROOT
from gate.libraries import LaidFile, LaidLink
from package import completions, manual

PACKAGING = ROOT / "packaging"
MANUAL = ROOT / "docs" / "elephant.1"
# Where shells look for completions, below a prefix: in /usr what packages bring is apart from what a site adds.
ZSH, ZSH_OF_SITE = "share/zsh/vendor-completions", "share/zsh/site-functions"
Laid = dict[str, LaidFile | LaidLink]


def text(data: str, mode: int = 0o644) -> LaidFile:
    return LaidFile(mode, data.encode())


def provenance(product: building.Product) -> str:
    """Returns the lines that an installation keeps of a product's proof."""
    stamp = product.read_stamp()
    if stamp is None:
        raise building.Unavailable(f"there is no proved {product.what} here: '{product.command}' proves and builds it")
    return stamp.provenance()


def said_version(command: str, product: building.Product) -> str:
    """Returns what an installed command prints of its version, with the proof of a product."""
    return f"{command} {building.version()}\n{provenance(product)}"


def with_completions(name: str, words: completions.Words, is_site: bool) -> Laid:
    """Returns the completions of a command for each shell."""
    return {
        f"share/bash-completion/completions/{name}": text(completions.bash(name, words)),
        f"{ZSH_OF_SITE if is_site else ZSH}/_{name}": text(completions.zsh(name, words)),
        f"share/fish/vendor_completions.d/{name}.fish": text(completions.fish(name, words)),
    }


def program_and_library(prefix: Path, libdir: str = "lib", is_site: bool = True) -> Laid:
    """Returns what `./elephant install` lays: all but the Python package."""
    return {
        "bin/elephant": LaidFile(0o755, (PACKAGING / "elephant").read_bytes()),
        "lib/elephant/elephant": LaidFile(0o755, building.PROGRAM.read_bytes()),
        "lib/elephant/PROVENANCE": text(provenance(building.BUILT_PROGRAM)),
        **libraries.installed(prefix, libdir=libdir),
        "share/man/man1/elephant.1": LaidFile(0o644, MANUAL.read_bytes()),
        "share/man/man3/elephant.3": text(manual.of_library()),
        **with_completions("elephant", completions.of_program(), is_site),
    }
