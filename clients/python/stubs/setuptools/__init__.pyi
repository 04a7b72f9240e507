# What setup.py uses of setuptools.
from collections.abc import Mapping

class Distribution:
    def has_ext_modules(self) -> bool: ...

class Command:
    def run(self) -> None: ...

def setup(
    *, license: str, distclass: type[Distribution], cmdclass: Mapping[str, type[Command]], options: Mapping[str, Mapping[str, str]]
) -> Distribution: ...
