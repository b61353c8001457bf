"""python3 -m nafelode is zone-print."""

import sys

from .cli import main

sys.exit(main())
