"""What elephant.browse uses of waitress."""

from collections.abc import Callable
from typing import Any

class Server:
    effective_port: str
    task_dispatcher: Any
    active_channels: dict[int, Any]
    def run(self) -> None: ...
    def close(self) -> None: ...

def create_server(application: Callable[..., Any], **kw: Any) -> Server: ...
