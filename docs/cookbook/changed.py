"""changed OLD NEW prints the classes that were added, changed or removed."""
import sys
from pathlib import Path
from dexasm import Program

old, new = (Program.read(Path(file).read_bytes()) for file in sys.argv[1:])
left = {one.name: one for one in old.classes}
for one in new.classes:
    was = left.pop(one.name, None)
    if was is None:
        print("added", one.name.spelled)
    elif was != one:
        print("changed", one.name.spelled)
for gone in left:
    print("removed", gone.spelled)
