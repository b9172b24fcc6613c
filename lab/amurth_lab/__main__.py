"""Runs the workbench as `python3 -m amurth_lab`."""

import sys

from .cli import main

if __name__ == "__main__":
    sys.exit(main())
