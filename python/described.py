"""Pages as they are for whoever has the wheel or a package alone: without what needs the repository around them."""
import re

CHECKOUT = re.compile(r"^<!-- checkout -->\n.*?^<!-- /checkout -->\n\n?", re.S | re.M)
# A link of a page, or code in which none is.
LINK = re.compile(r"^```.*?^```|`[^`\n]*`|(!?)\[((?:[^][`]|`[^`\n]*`)*)\]\(([^)\s]+)\)", re.S | re.M)


def described(page: str) -> str:
    """A page with the words of those links that lead into the repository, and without the links."""
    page = CHECKOUT.sub("", page)
    return LINK.sub(lambda found: found[0] if found[3] is None or re.match(r"\w+:|#", found[3]) else found[2], page)
