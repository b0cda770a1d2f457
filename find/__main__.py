"""Runs the search: `python3 find ARGUMENTS`."""
import sys
from pathlib import Path

sys.dont_write_bytecode = True
sys.path[0] = str(Path(__file__).resolve().parent.parent)

from find.command import main  # noqa: E402

sys.exit(main(sys.argv[1:]))
