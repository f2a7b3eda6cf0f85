#!/usr/bin/env python3
"""hminify.py WORDS..: the reference program, with the command line of hminify. Needs Python 3.9 or later."""
import os
import sys

sys.path.insert(0, os.path.dirname(os.path.abspath(__file__)))

from hminify_reference.run import run  # noqa: E402

if __name__ == "__main__":
    sys.exit(run(sys.argv[1:]))
