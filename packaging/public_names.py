"""Lists what a crate has for its callers, from the pages that rustdoc made of it: public_names.py FOLDER.

Each item is followed by its fields, its variants and its own calls and constants, and by the traits that
it has an impl of.
"""

import pathlib
import re
import sys
import textwrap
from urllib.parse import unquote_plus

PAGE = re.compile(r"(struct|enum|union|trait|fn|type|constant|static|macro)\.(\w+)\.html")
PART = re.compile(r'id="(?:structfield|variant|method|tymethod|associatedconstant|associatedtype)\.([\w.]+)"')
IMPL = re.compile(r'id="impl-([^"]+)-for-')
OF_TRAITS = 'id="trait-implementations"'
OF_OTHERS = re.compile('id="(?:synthetic|blanket)-implementations"')


def shown(word, names):
    """Lines with names after a word; none without names."""
    text = f"{word} {', '.join(names)}" if names else ""
    return textwrap.wrap(text, 100, initial_indent="    ", subsequent_indent="        ")


def main():
    lines = {}
    for path in pathlib.Path(sys.argv[1]).rglob("*.html"):
        found, page = PAGE.fullmatch(path.name), path.read_text(encoding="utf-8")
        if found and 'http-equiv="refresh"' not in page:
            kind, name = found.groups()
            own, _, others = page.partition(OF_TRAITS)
            impls = set(map(unquote_plus, IMPL.findall(OF_OTHERS.split(others)[0])))
            lines[name] = [f"{kind} {name}", *shown("has", sorted(set(PART.findall(own))))]
            lines[name] += shown("is", sorted(impls - {"StructuralPartialEq"}))
    for name in sorted(lines):
        print(*lines[name], sep="\n")


main()
