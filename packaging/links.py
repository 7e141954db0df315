"""Makes text of each link in the pages of a folder that leads to nothing there: links.py FOLDER."""

import pathlib
import re
import sys

LINK = re.compile(r"\[([^][]+)\]\(([^)\s]+)\)")


def main():
    for page in pathlib.Path(sys.argv[1]).rglob("*.md"):

        def kept(link):
            """The link, or its text alone."""
            name = link[2].partition("#")[0]
            leads = "://" in name or not name or (page.parent / name).exists()
            return link[0] if leads else link[1]

        page.write_text(LINK.sub(kept, page.read_text(encoding="utf-8")), encoding="utf-8")


main()
