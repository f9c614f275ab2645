"""Pages of HTML: names of somebody else's making as text, tables, pictures."""
