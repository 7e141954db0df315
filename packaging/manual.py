"""Makes the page of a program, or the completion of its words, of what the program says of itself.

manual.py man VERSION PROGRAM DOCUMENT    the page, for man; of a program without --help, its document
manual.py completion VERSION PROGRAM      the words that bash completes
"""

import os
import re
import subprocess
import sys


def said(program, *words):
    """What the program says of its words; nothing where it has no --help."""
    ran = subprocess.run([program, *words, "--help"], capture_output=True, text=True)
    return ran.stdout if ran.returncode == 0 else ""


def usage_of(program):
    """How a program without --help is called."""
    return subprocess.run([program], capture_output=True, text=True).stderr.strip()


def commands_of(text):
    """The names of the commands that a help or a usage lists."""
    if text.startswith("usage:"):
        return re.findall(r"(?:^usage: \w+|\|) (\w+)", text)
    listed = re.search(r"^Commands:\n((?:  .*\n|\n)+)", text, re.MULTILINE)
    names = re.findall(r"^  (\w[\w-]*)", listed[1], re.MULTILINE) if listed else []
    return [name for name in names if name != "help"]


def escaped(line):
    """A line of text as roff takes it."""
    line = line.replace("\\", "\\e").replace("-", "\\-")
    return "\\&" + line if line.startswith((".", "'")) else line


def shown(lines):
    """Lines of text as they are."""
    return [".nf", *map(escaped, lines), ".fi"]


def page(program, version, document):
    name = os.path.basename(program)
    help_text = said(program)
    with open(document, encoding="utf-8") as source:
        first, *rest = help_text.splitlines() or source.read().lstrip("# ").splitlines()
    does = first.removeprefix(f"{name}: ")
    lines = [f'.TH {name.upper()} 1 "" "maqelsun {version}"', ".SH NAME", f"{name} \\- {escaped(does)}"]
    if not help_text:
        lines += [".SH SYNOPSIS", *shown([usage_of(program).removeprefix("usage: ")])]
    lines += [".SH DESCRIPTION", *shown(rest)]
    for command in commands_of(help_text):
        lines += [f".SH {command.upper()}", *shown(said(program, command).splitlines())]
    return "\n".join(lines) + "\n"


def options_of(text):
    return sorted(set(re.findall(r"(--[a-z][a-z0-9-]*)", text)))


def completion(program):
    name = os.path.basename(program)
    help_text = said(program) or usage_of(program)
    commands = commands_of(help_text)
    cases = [f"    {command}) words='{' '.join(options_of(said(program, command)))}' ;;" for command in commands]
    words = " ".join([*commands, *options_of(help_text)])
    return "\n".join([
        f"# The words of {name}, for bash.",
        f"_{name}() {{",
        "  local words current=${COMP_WORDS[COMP_CWORD]}",
        '  if [ "$COMP_CWORD" = 1 ]; then',
        f"    COMPREPLY=($(compgen -W '{words}' -- \"$current\"))",
        "    return",
        "  fi",
        "  case ${COMP_WORDS[1]} in",
        *cases,
        "  esac",
        "  COMPREPLY=($(compgen -W \"$words\" -- \"$current\") $(compgen -f -- \"$current\"))",
        "}",
        f"complete -o filenames -F _{name} {name}",
        "",
    ])


def main():
    kind, version, program, *document = sys.argv[1:]
    print(page(program, version, *document) if kind == "man" else completion(program), end="")


main()
