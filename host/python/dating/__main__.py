"""`python3 -m dating [FILE]`: the shell."""

import sys

from .shell.main import main

if __name__ == "__main__":
    sys.exit(main())
