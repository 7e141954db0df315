"""Makes programs of the examples in the documents of the crate that write a movie.

doc_examples.py SOURCE OUT..: the first example in the source that calls `finish()`, as a program that
leaves its movie in the file that it is given; a source and a file of the program for each.
"""

import re
import sys

FINISH = re.compile(r"^( *)(let file.*finish\(\)\?;)$", re.MULTILINE)


def example_of(source):
    """The first example that writes a movie, with its hidden lines."""
    documents = "\n".join(re.findall(r"^\s*//[/!] ?(.*)$", source, re.MULTILINE))
    for example in re.findall(r"^```\n(.*?)^```$", documents, re.MULTILINE | re.DOTALL):
        lines = re.sub(r"^# ", "", example, flags=re.MULTILINE)
        if FINISH.search(lines):
            return lines
    raise SystemExit("no example writes a movie")


def main():
    for path, out in zip(sys.argv[1::2], sys.argv[2::2]):
        with open(path, encoding="utf-8") as source:
            example = example_of(source.read())
        kept = r"\1\2\n\1std::fs::write(std::env::args().nth(1).unwrap(), &file)?;"
        with open(out, "w", encoding="utf-8") as program:
            program.write(FINISH.sub(kept, example))


main()
