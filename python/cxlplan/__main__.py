"""`python3 -m cxlplan` is cxldesk."""

import sys

from .desk.main import main

sys.exit(main())
