"""`python3 -m lpt_live WORD ..`, and the start of the one file that `lpt-live bundle` makes."""
import sys

from .cli import main

sys.exit(main(sys.argv[1:]))
