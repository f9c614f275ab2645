"""python3 -m dexasm WORD..: runs the command dexasm with these words."""
import contextlib
import os
import sys

from dexasm._native import find_command

try:
    command = find_command()
    os.execv(command, [command, *sys.argv[1:]])
except (ImportError, OSError) as error:
    with contextlib.suppress(OSError):
        print(f"dexasm: {ascii(str(error))[1:-1]}", file=sys.stderr, flush=True)
    sys.exit(3)
