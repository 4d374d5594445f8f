"""The command: python3 host. Run so, and not as a module, no file of the folder that it is called in stands before the standard library."""
import sys

if sys.version_info < (3, 9):
    print("meshorchard: python3 is " + sys.version.split()[0] + "; it must be 3.9 or later", file=sys.stderr)
    sys.exit(2)

from meshorchard.command import main

sys.exit(main())
