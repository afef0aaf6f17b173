"""Makes one crate of all stored programs and tests, for one compile without proofs.

Such a compile takes minutes, most of them for the crates below, so one for all costs little more than one for each. Each program becomes a
module whose `main` is a test, since the handles of a process are given to `main` and to tests alone; `--test` makes a program that runs the
test which its first word names.
"""
import os
import re
import sys

sys.dont_write_bytecode = True
sys.path.insert(0, os.path.dirname(os.path.abspath(__file__)))
import kit

TEST = re.compile(r"^#\[test\]\n(?:(?://|#).*\n)*(?:pub )?fn (\w+)", re.M)
TEST_MODULE = re.compile(r"^#\[cfg\(test\)\]\nmod (\w+);\n", re.M)


def sources(name):
    """Returns the texts of a crate's sources by their paths in src/."""
    found = {}
    for path in kit.files_of(name, ("src",)):
        if path.endswith(".rt"):
            with open(f"{kit.TOP}/{path}", encoding="utf-8") as file:
                found[path.split("/src/", 1)[1]] = file.read()
    return found


def write(path, text):
    os.makedirs(os.path.dirname(path), exist_ok=True)
    with open(path, "w", encoding="utf-8") as file:
        file.write(text)


def within(text, module):
    """Returns the text of a crate's root or module as that of a module of the merged crate."""
    return re.sub(r"\bcrate::", f"crate::{module}::", text.replace("#![tactic(auto)]\n", ""))


def past_name(text):
    """Returns a text that reads the words behind the test's name as those of the program."""
    return text.replace(".skip(1)", ".skip(2)") if "env::args(" in text else text


class Merged:
    """The merged crate: its modules, what they use, where changed libraries lie, its tests by their names, and the tests that it lacks."""

    def __init__(self, room):
        self.room, self.modules, self.uses, self.places = room, [], [], {}
        self.tests, self.lacks = {}, {}

    def add_program(self, name):
        for path, text in sources(name).items():
            text = past_name(within(text, name))
            if path == "main.rt":
                text = re.sub(r"^fn main\(", "#[test]\nfn main(", text, flags=re.M)
            write(f"{self.room}/src/{name}/{'mod.rt' if path == 'main.rt' else path}", text)
        self.add_module(name, kit.listed()[name][1])

    def add_module(self, module, uses):
        self.modules.append(module)
        self.uses += [it for it in uses if it not in self.uses]

    def add_tests(self, name):
        """Adds the tests of a crate: the whole crate where it has nothing else, and else the files that hold them."""
        texts = sources(name)
        root = "lib.rt" if "lib.rt" in texts else "main.rt"
        own = TEST_MODULE.findall(texts[root])
        files = {path: TEST.findall(text) for path, text in texts.items() if TEST.search(text)}
        if set(re.findall(r"^(?:pub )?mod (\w+);", texts[root], re.M)) == set(own) and root not in files:
            for path, text in texts.items():
                write(f"{self.room}/src/{name}/{'mod.rt' if path == root else path}", within(text, name))
            self.add_module(name, kit.listed()[name][1])
            self.tests.update({f"{name}::{path[:-3]}::{test}": name for path, names in files.items() for test in names})
            return
        for path, names in files.items():
            if root == "lib.rt" and path[:-3] in own:
                module = f"tests_of_{name}"
                text = texts[path].replace(f"crate::{path[:-3]}::", f"crate::{module}::")
                write(f"{self.room}/src/{module}.rt", re.sub(r"\bcrate::(?!tests_of_)", f"{name}::", text))
                self.add_module(module, [name, *kit.listed()[name][1]])
                self.tests.update({f"{module}::{test}": name for test in names})
            else:
                self.lacks.update({f"{name}::{path[:-3]}::{test}": "it stands beside the code that it tests" for test in names})

    def change_libraries(self):
        """Writes the libraries that read the process's words, as the programs read them here."""
        for name in kit.needed(self.uses):
            texts = sources(name)
            if any(past_name(text) != text for text in texts.values()):
                self.places[name] = f"{self.room}/libraries/{name}"
                for path, text in texts.items():
                    write(f"{self.places[name]}/src/{path}", past_name(text))

    def finish(self):
        """Writes the root, and returns its path."""
        self.change_libraries()
        write(f"{self.room}/src/lib.rt", "\n".join(f"mod {name};" for name in self.modules) + "\n")
        return f"{self.room}/src/lib.rt"


def has_tests(name):
    return any(TEST.search(text) for text in sources(name).values())
