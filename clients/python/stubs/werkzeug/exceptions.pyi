"""What elephant.browse uses of werkzeug's exceptions."""

from typing import Optional

class HTTPException(Exception):
    code: Optional[int]
    name: str
