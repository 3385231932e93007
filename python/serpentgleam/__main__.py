"""python3 -m serpentgleam is the command."""
import sys

from .command import main

sys.exit(main())
