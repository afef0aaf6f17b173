#!/usr/bin/env python3
"""Prints help or the version, from the texts in the sources, or ends with status 3 where the words ask for neither. `./apiaggd test` compares each page with what the program prints."""
import os
import re
import sys

sys.dont_write_bytecode = True
sys.path.insert(0, os.path.dirname(os.path.abspath(__file__)))
import kit

SOURCE = f"{kit.TOP}/crates/explain_command/src/help.rt"
ESCAPES = {"n": "\n", "t": "\t", '"': '"', "\\": "\\"}


def value(literal):
    """Returns the text of a string literal, a raw one or one with escapes."""
    raw = re.fullmatch(r'r(#*)"(.*)"\1', literal, re.S)
    if raw:
        return raw[2]
    return re.sub(r"\\(?:\n\s*|(.))", lambda it: ESCAPES[it[1]] if it[1] else "", literal[1:-1])


def texts():
    """Returns the page of each topic by its name in lower case, and the version."""
    with open(SOURCE, encoding="utf-8") as file:
        source = file.read()
    named = r'const (\w+): &str =\s*(r(#*)".*?"\3|"(?:[^"\\]|\\.)*");'
    constants = {it[1]: value(it[2]) for it in re.finditer(named, source, re.S)}
    return {it[1].lower(): constants[it[2]] for it in re.finditer(r"Topic::(\w+) => (\w+),", source)}, constants["VERSION"]


def page(words):
    """Returns the text that these words ask for, or None where they ask for none."""
    pages, version = texts()
    program = pages.pop("program")
    if words in (["--help"], ["-h"], ["help"]):
        return program
    if words == ["--version"]:
        return version
    if len(words) == 2 and words[0] == "help":
        return pages.get(words[1])
    if len(words) == 2 and words[1] in ("--help", "-h"):
        return pages.get(words[0])
    return None


def main():
    try:
        text = page(sys.argv[1:])
    except (OSError, KeyError):
        text = None
    if text is None:
        return 3
    try:
        sys.stdout.write(text)
        sys.stdout.flush()
    except OSError as error:
        os.dup2(os.open(os.devnull, os.O_WRONLY), 1)
        print(f"apiaggd: write fault\napiaggd: standard output: {error.strerror.lower()}", file=sys.stderr)
        return 7
    return 0


if __name__ == "__main__":
    sys.exit(main())
