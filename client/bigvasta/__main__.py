"""Runs the client program: `python3 -m bigvasta`."""

import sys

from bigvasta.cli import main

if __name__ == "__main__":
    sys.exit(main(sys.argv[1:]))
