"""`python3 -m elephant.browse` is the command `elephant-browse`."""

import sys

from .main import main

sys.exit(main())
