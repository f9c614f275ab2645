"""Where and why a listing is at fault."""
