"""verdict FILE .. says of each file ok, or which rule it breaks and where. Status 1: one was refused."""
import sys
from pathlib import Path
import dexasm

refusals = 0
for file in sys.argv[1:]:
    try:
        dexasm.check(Path(file).read_bytes())
        print(f"{file}: ok")
    except dexasm.Refused as refused:
        refusals += 1
        print(f"{file}: {refused.number} {refused.name} at {refused.place}")
if refusals:
    sys.exit(f"Error: {refusals} refused")
