"""The former names of the helpers' modules: `python3 -m dexasm.tools.check` runs `dexasm.cli.check`."""
import os

_HERE = os.path.dirname(os.path.abspath(__file__))
__path__ = [os.path.join(_HERE, "cli"), _HERE]
