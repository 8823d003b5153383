# PYTHON_ARGCOMPLETE_OK
import sys

from .command import main

sys.exit(main())
