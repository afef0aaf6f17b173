"""The kit on the path, and which sources a program is made of."""
import contextlib
import fcntl
import hashlib
import importlib.machinery
import importlib.util
import os
import re
import shutil
import subprocess
import sys

sys.dont_write_bytecode = True
TOP = os.path.dirname(os.path.dirname(os.path.abspath(__file__)))
PROVED = f"{TOP}/crates/apiaggd/out/apiaggd"
MARK = f"{TOP}/crates/apiaggd/out/built"


def tell(text):
    print(f"apiaggd: {text}", file=sys.stderr, flush=True)


def rt():
    """Returns the path of the kit's command."""
    found = shutil.which("rt")
    if not found:
        tell("the Rattle kit is needed: rt is not on the path")
        sys.exit(2)
    return os.path.realpath(found)


def loaded():
    """Returns rt as a module, or None where the kit's is made otherwise."""
    path = rt()
    try:
        sys.path.insert(0, os.path.dirname(path))
        loader = importlib.machinery.SourceFileLoader("rt_of_the_kit", path)
        module = importlib.util.module_from_spec(importlib.util.spec_from_loader(loader.name, loader))
        sys.modules[loader.name] = module
        loader.exec_module(module)
        return module if hasattr(module, "rtlib") else None
    except Exception:
        return None


def identity():
    """Returns the kit's one line, as `rt version` prints it."""
    with contextlib.suppress(OSError):
        with open(f"{os.path.dirname(os.path.dirname(rt()))}/KIT-ID", encoding="utf-8") as file:
            return file.read()
    return subprocess.run([rt(), "version"], stdout=subprocess.PIPE, text=True).stdout


def listed():
    """Returns the lines of crates.txt: of each crate its line and the names that it uses."""
    with open(f"{TOP}/crates.txt", encoding="utf-8") as file:
        rows = [re.fullmatch(r"(\w+)[^:#]*:([^#\n]*)", line.rstrip("\n")) for line in file]
    return {row[1]: (row[0], row[2].split()) for row in rows if row}


def needed(names):
    """Returns these crates and those below them, lowest first."""
    crates, found = listed(), {}

    def add(name):
        if name in crates and name not in found:
            for below in crates[name][1]:
                add(below)
            found[name] = crates[name]

    for name in names:
        add(name)
    return found


def files_of(name, parts):
    """Returns the paths of a crate's files in these folders, below the top."""
    found = []
    for part in parts:
        for at, folders, names in os.walk(f"{TOP}/crates/{name}/{part}"):
            folders.sort()
            found += [os.path.relpath(f"{at}/{it}", TOP) for it in sorted(names)]
    return found


def sum_of(names, parts, more=""):
    """Returns a sum of the kit, and of what these crates and those below them have in these folders."""
    total = hashlib.sha256((identity() + more).encode())
    for name, (line, _) in needed(names).items():
        total.update(f"{line}\n".encode())
        for path in files_of(name, parts):
            with open(f"{TOP}/{path}", "rb") as file:
                text = file.read()
            total.update(f"{path} {len(text)}\n".encode() + text)
    return total.hexdigest()


def proved_sum():
    with open(f"{TOP}/HANDLES", encoding="utf-8") as file:
        return sum_of(["apiaggd"], ("src", "specs", "proofs"), file.read())


def is_proved():
    """Returns whether the program was proved and built from the sources as they are."""
    with contextlib.suppress(OSError):
        with open(MARK, encoding="utf-8") as file:
            return os.access(PROVED, os.X_OK) and file.read().strip() == proved_sum()
    return False


def cache():
    """Returns the folder for all that is kept outside the checkout."""
    home = os.environ.get("XDG_CACHE_HOME") or f"{os.path.expanduser('~')}/.cache"
    folder = f"{home}/apiaggd"
    try:
        os.makedirs(folder, exist_ok=True)
    except OSError as error:
        tell(f"{folder} can't be made: {error.strerror}. XDG_CACHE_HOME names another folder")
        sys.exit(2)
    return folder


@contextlib.contextmanager
def alone(folder, why):
    """Waits until no other call works in the folder."""
    os.makedirs(folder, exist_ok=True)
    with open(f"{folder}/lock", "w", encoding="utf-8") as lock:
        try:
            fcntl.flock(lock, fcntl.LOCK_EX | fcntl.LOCK_NB)
        except BlockingIOError:
            tell(why)
            fcntl.flock(lock, fcntl.LOCK_EX)
        except OSError:
            # (some file systems have no locks)
            pass
        yield
