"""`python3 -m elephant.mount` is the command `elephant-mount`."""

import sys

from .main import main

sys.exit(main())
