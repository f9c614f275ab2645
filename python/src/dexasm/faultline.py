"""Where a listing is at fault: the public name of `dexasm.listing.diagnostics`."""
from dexasm.listing.diagnostics import Place, of

__all__ = ["Place", "of"]
