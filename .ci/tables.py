#!/usr/bin/env python3
"""Writes the tables of the pages that a script can list, from the sources: each stands between '<!-- table: NAME -->' and '<!-- end -->'.

    .ci/tables.py          writes them anew
    .ci/tables.py --check  fails, and names the page, where one differs from what this script prints
    .ci/tables.py NAME     prints one: 'options', 'options of COMMAND' or 'options of COMMAND: NAME, ..', layers, kit, unguarded
                           or crates
"""
import glob
import os
import re
import sys

sys.dont_write_bytecode = True
sys.path.insert(0, os.path.dirname(os.path.abspath(__file__)))
import kit
import merged
import pages

MARKED = re.compile(r"^(<!-- table: ([^\n]+) -->\n)(.*?)^(<!-- end -->)$", re.M | re.S)
COMMANDS = ("serve", "explain", "check", "ship", "resources", "probe")
WIDTH = 140


class Wrong(Exception):
    """Sources that this script can't read, or that contradict one another, and where."""


def text_of(path):
    with open(f"{kit.TOP}/{path}", encoding="utf-8") as file:
        return file.read()


def rows_of(head, rows):
    """Returns the lines of a table."""
    lines = [re.sub(r"\|  (?=\|)", "| ", f"| {' | '.join(row)} |\n") for row in [head, *rows]]
    return "".join([lines[0], f"|{'---|' * len(head)}\n", *lines[1:]])


def listed(names):
    """Returns a list of names on lines of at most WIDTH characters."""
    words, lines = [f"`{name}`{',' if name != names[-1] else ''}" for name in names], [""]
    for word in words:
        if len(lines[-1]) + len(word) + 1 > WIDTH:
            lines.append("")
        lines[-1] += f"{' ' if lines[-1] else ''}{word}"
    return "\n".join(lines) + "\n"


# ---- options

def number_arms(body):
    """Returns what a match in ranged.rt answers, by the variant."""
    found = {}
    for arm in re.finditer(r"((?:\w+::\w+\s*\|?\s*)+)=>\s*([\w:]+),", body):
        for it in re.findall(r"::(\w+)", arm[1]):
            found[it] = (1 << 64) - 1 if arm[2] == "u64::MAX" else int(arm[2].replace("_", ""))
    return found


def options_of_sources():
    """Returns of each command the names of its options, of each number's option its least, most and default, the options that a command can't be
    without, and those that have no value."""
    at = "crates/command_options/src"
    names = dict(re.findall(r'pub const (\w+): &str = "([^"]+)";', text_of(f"{at}/names.rt")))
    table, ranged = text_of(f"{at}/table.rt"), text_of(f"{at}/ranged.rt")
    lists = {it[1]: [names[one] for one in re.findall(r"\w+", it[2])] for it in re.finditer(r"const (\w+): \[[^\]]*\] = \[(.*?)\];", table, re.S)}
    own = {it[1]: lists[it[2]] for it in re.finditer(r'"(\w+)" => &(\w+),', table)}
    parts = {it[1]: number_arms(it[2]) for it in re.finditer(r"pub fn (\w+)\(self\) -> u64.*?match self \{(.*?)\n        \}", ranged, re.S)}
    variants = {names[it[1]]: it[2] for it in re.finditer(r"(\w+) => Some\(Ranged::(\w+)\)", table)}
    needs = {names[it[2]]: it[1] for it in re.finditer(r'"(\w+)" => Some\((\w+)\)', table)}
    numbers = {name: tuple(parts[part][it] for part in ("least", "most", "default_number")) for name, it in variants.items()}
    flags = {names[it] for arm in re.findall(r"((?:\w+\s*\|\s*)*\w+) =>\s*ValueKind::Flag", table) for it in re.findall(r"\w+", arm)}
    return own, numbers, needs, flags


def options_of_help(page):
    """Returns of each option of a page of help its word, what it is, its range and its default, where these are said."""
    found, heading = {}, ""
    for block in re.finditer(r"^(\S.*):\n|^  (--[\w-]+)(=\S+)?(?:\s+(.*))?\n((?: {4,}.*\n)*)", page, re.M):
        if block[1]:
            heading = block[1]
            continue
        text = " ".join(f"{block[4] or ''} {block[5]}".split())
        default = re.search(r" ?\(default: ([^()]*)\)", text)
        limits = re.search(r": (\d+) to\s(\d+)", text)
        text = text.replace(default[0], "") if default else text
        what = re.split(r"[:;.](?: |$)", text)[0].replace(" - ", " `-` ")
        what += ", in milliseconds" if heading.endswith("in milliseconds") and what.startswith("how long") else ""
        found[block[2][2:]] = (f"{block[2]}{block[3] or ''}", what, limits and (int(limits[1]), int(limits[2])), default and default[1])
    return found


def option_rows():
    """The options of the commands: of each its name, the commands that have it, and its row. Help and code have to agree."""
    own, numbers, needs, flags = options_of_sources()
    helps = {command: options_of_help(pages.page([command, "--help"])) for command in COMMANDS}
    rows = {}
    for command in COMMANDS:
        for name in own[command]:
            if name not in helps[command]:
                raise Wrong(f"the help of {command} lacks --{name}")
            word, what, limits, default = helps[command][name]
            least, most, number = numbers.get(name, (None, None, None))
            # (help leaves a range out that has no end, and some defaults depend on other options)
            differs = default != str(number) and not (default and not default[0].isdigit())
            if name in numbers and (differs or limits != (least, most) and (limits or most < (1 << 64) - 1)):
                raise Wrong(f"the help of {command} has another range or default of --{name} than ranged.rt")
            flag = "=" not in word
            if flag != (name in flags):
                raise Wrong(f"the help of {command} and table.rt differ on whether --{name} has a value")
            if name not in rows:
                limit = "no value" if flag else f"{least} to {most}" if name in numbers and limits else ""
                without = default or ("off" if flag else "none")
                without += f"; `{needs[name]}` needs it" if name in needs else ""
                users = [it for it in COMMANDS if name in own[it]]
                rows[name] = (users, [f"`{word}`", ", ".join(f"`{it}`" for it in users), what, limit, without])
    return rows


def options(command="", only=""):
    """The options of all commands, of one, or some of one: what each gives, its range and its default."""
    rows, head = option_rows(), ["option", "of", "what it gives", "range", "default"]
    if not command:
        return rows_of(head, [row for _, row in rows.values()])
    names = only.split(", ") if only else [name for name, (users, _) in rows.items() if command in users]
    if not all(name in rows and command in rows[name][0] for name in names):
        raise Wrong(f"{command} has no such options: {only}")
    return rows_of([head[0], *head[2:]], [[row[0], *row[2:]] for _, row in (rows[name] for name in names)])


# ---- crates

def layers():
    """Returns the layers of crates.txt, lowest first: the name of each, what it knows, and its crates."""
    found, crates = [], kit.listed()
    for part in re.split(r"\n\n+", text_of("crates.txt"))[1:]:
        head = re.match(r"# (?:([\w ]+): )?(.+)", part)
        names = [line.split(":")[0] for line in part.splitlines()]
        if head:
            found.append((head[1] or ("bench" if "bench/" in head[2] else head[2]), head[2], []))
        found[-1][2].extend(it for it in names if it in crates)
    return found


def is_test(name):
    """Returns whether a crate is a program beside the program, or has nothing but tests."""
    if os.path.isfile(f"{kit.TOP}/crates/{name}/src/main.rt"):
        return True
    root = text_of(f"crates/{name}/src/lib.rt")
    return merged.has_tests(name) and set(re.findall(r"^(?:pub )?mod (\w+);", root, re.M)) == set(merged.TEST_MODULE.findall(root))


def kinds():
    """Returns of each crate what it is for: program, laws, tests or benches."""
    crates, program = kit.listed(), kit.needed(["apiaggd"])
    kind = {name: "program" for name in program}
    kind.update({name: "benches" for layer, _, names in layers() if layer.startswith("bench") for name in names})
    for name in reversed(list(crates)):
        users = [it for it, (_, uses) in crates.items() if name in uses]
        if name not in kind:
            kind[name] = "tests" if is_test(name) or users and all(kind[it] in ("tests", "benches") for it in users) else "laws"
    return kind


KINDS = {"program": "the program", "laws": "laws and model", "tests": "tests", "benches": "benches"}


def layer_table():
    """The layers, lowest first, with how many crates each has, and on how many others all of them stand."""
    kind, crates, rows = kinds(), kit.listed(), []
    for layer, what, names in layers():
        counts = [sum(kind[it] == one for it in names) for one in KINDS]
        rows.append([layer, *(str(it) if it else "" for it in counts), what])
    uses = {one: [it for name, (_, names) in crates.items() if kind[name] == one for it in names] for one in KINDS}
    rows.append(["all", *(str(list(kind.values()).count(one)) for one in KINDS), f"{len(crates)} crates"])
    own = [sum(it in crates for it in uses[one]) for one in KINDS]
    rows.append(["dependencies on these", *map(str, own), f"{sum(own)} in all"])
    others = [len(uses[one]) - count for one, count in zip(KINDS, own)]
    rows.append(["dependencies on the kit's", *map(str, others), f"{sum(others)} in all"])
    return rows_of(["layer", *KINDS.values(), "has"], rows)


def kit_list():
    """The kit's crates that the program names."""
    own = kit.listed()
    names = sorted({it for _, uses in kit.needed(["apiaggd"]).values() for it in uses if it not in own})
    return listed(names)


def unguarded():
    """The crates of the program of which no wrong body is stored."""
    edits = [f"{kit.TOP}/crates/{{}}/must-fail/*.edit", f"{kit.TOP}/wrong-bodies/{{}}/*.edit"]
    names = [name for name in kit.needed(["apiaggd"]) if not any(glob.glob(it.format(name)) for it in edits)]
    return listed(sorted(names))


def first_sentence(name):
    """Returns the first sentence of the comment at the head of a crate."""
    root = f"crates/{name}/src/lib.rt"
    text = text_of(root if os.path.isfile(f"{kit.TOP}/{root}") else f"crates/{name}/src/main.rt")
    head = re.match(r"(?://[/!]? ?.*\n)+", text)
    words = re.sub(r"^//[/!]? ?", "", head[0] if head else "", flags=re.M).replace("\n", " ")
    return re.split(r"(?<=[.:]) (?=[A-Z])|(?<=\.) ", words.strip())[0]


def crate_list():
    """The crates by layer, each with the first sentence of its own."""
    kind, text = kinds(), ""
    for layer, what, names in layers():
        text += f"{layer}: {what}\n" + "".join(f"  {name} ({kind[name]}): {first_sentence(name)}\n" for name in names)
    return text


TABLES = {"options": options, "layers": layer_table, "kit": kit_list, "unguarded": unguarded, "crates": crate_list}


def made(name):
    """Returns the table of that name."""
    some = re.fullmatch(r"options of (\w+)(?:: (.+))?", name)
    if some:
        return options(some[1], some[2] or "")
    if name not in TABLES:
        raise Wrong(f"there is no table of the name '{name}'")
    return TABLES[name]()


def documents():
    """Returns the paths of the pages, below the top."""
    found = [it for at in ("*.md", "docs/*.md", "bench/*.md", "examples/*.md") for it in glob.glob(f"{kit.TOP}/{at}")]
    return sorted(os.path.relpath(it, kit.TOP) for it in found)


def filled(text):
    """Returns a page with its tables as the sources have them now."""
    return MARKED.sub(lambda mark: mark[1] + made(mark[2]) + mark[4], text)


def differing():
    """Returns the pages whose tables differ from the sources, each with its text as it should be."""
    return {path: text for path in documents() for was in [text_of(path)] for text in [filled(was)] if text != was}


def main():
    words = sys.argv[1:]
    try:
        if words and not words[0].startswith("-"):
            print(made(" ".join(words)), end="")
            return 0
        if words not in ([], ["--check"]):
            print(__doc__.strip(), file=sys.stderr)
            return 2
        pages_now = differing()
        for path, text in pages_now.items():
            if words:
                kit.tell(f"{path}: a table differs from the sources: '.ci/tables.py' writes it")
            else:
                with open(f"{kit.TOP}/{path}", "w", encoding="utf-8") as file:
                    file.write(text)
        return 1 if words and pages_now else 0
    except (Wrong, OSError, KeyError, ValueError) as why:
        kit.tell(f"tables: {why!r}" if isinstance(why, KeyError) else f"tables: {why}")
        return 1


if __name__ == "__main__":
    sys.exit(main())
