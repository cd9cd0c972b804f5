"""Runs mend-reel as `python3 -m mend_reel`."""
import sys

from mend_reel.program.command import main

if __name__ == "__main__":
    sys.exit(main())
