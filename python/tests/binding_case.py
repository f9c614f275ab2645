"""What the tests of the module dexasm share: over which library it is tried."""
import os

from tests import config
from tests.base import TestCase


class ModuleTest(TestCase):
    """A test of the module over the library that is tried, or over what DEXASM_LIBRARY or DEXASM_COMMAND names."""

    @classmethod
    def setUpClass(cls) -> None:
        super().setUpClass()
        if config.named("LIBRARY") or not {"DEXASM_LIBRARY", "DEXASM_COMMAND"} & set(os.environ):
            os.environ["DEXASM_LIBRARY"] = os.path.join(config.library(), "libdexasm.so")
