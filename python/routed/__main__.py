"""`python3 -m routed` is `routed-tools`."""
import sys

from .tools import main

sys.exit(main())
