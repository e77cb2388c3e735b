"""`python3 -m weft`."""

import sys

from weft.main import main

if __name__ == "__main__":
    sys.exit(main(sys.argv[1:]))
