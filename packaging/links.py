"""Links of pages, as they lead where the pages are installed."""
import os
import re

LINK = re.compile(r"\[([^]]*)\]\(([^)\s]+)\)")


def relinked(text, page, places):
    """The text of a page of the repository, whose links lead from its place to those of other files. A link to a file that
    has no place is its words alone."""
    def link(found):
        path, mark, heading = found[2].partition("#")
        if not path or ":" in path:
            return found[0]
        place = places.get(os.path.normpath(os.path.join(os.path.dirname(page), path)))
        if place is None:
            return found[1]
        return "[%s](%s)" % (found[1], os.path.relpath(place, os.path.dirname(places[page])) + mark + heading)
    return LINK.sub(link, text)
