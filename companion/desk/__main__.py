"""Runs desk as `python3 -m desk`."""
import sys

from .command_line import main

sys.exit(main(sys.argv[1:]))
