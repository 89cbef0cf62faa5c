"""What several tools use: the repository, the kit, scratch folders, programs and stores.

A script in a folder of tools/ finds this module by the line
    sys.path.insert(0, str(pathlib.Path(__file__).resolve().parent.parent))
"""
import contextlib
import importlib.machinery
import importlib.util
import os
import pathlib
import resource
import shutil
import subprocess
import sys
import tempfile

TOOLS = pathlib.Path(__file__).resolve().parent
TOP = TOOLS.parent
CRATES, DOCS = TOP / "crates", TOP / "docs"


# ---------------------------------------------------------------- the repository


def listed():
    """The crates that each crate stands on, by crates.txt, in its order."""
    lines = (TOP / "crates.txt").read_text().splitlines()
    pairs = [line.split(":") for line in lines if line and not line.startswith("#")]
    return {crate: below.split() for crate, below in pairs}


def table_rows(text):
    """The rows of the tables in a Markdown text, each as the list of its cells."""
    for line in text.splitlines():
        if "|" in line:
            yield [cell.strip() for cell in line.split("|")[1:-1]]


def copy_crates(folder):
    """Copies all crates and crates.txt into a folder, without what was built."""
    shutil.copytree(CRATES, folder / "crates", ignore=shutil.ignore_patterns("out"))
    shutil.copy(TOP / "crates.txt", folder)


def replace_once(file, old, new, complaint):
    """Replaces a text in a file. Unless the file has it exactly once, the tool ends."""
    text = file.read_text()
    if text.count(old) != 1:
        sys.exit(complaint)
    file.write_text(text.replace(old, new))


# ---------------------------------------------------------------- the kit


def kit():
    """The folder of the Rattle kit."""
    found = pathlib.Path(shutil.which("rt") or "/opt/rattle/bin/rt").resolve().parent.parent
    return found if (found / "toolchain").is_dir() else pathlib.Path("/opt/rattle")


def kits_own():
    """What `rt` itself knows of crates and stamps."""
    sys.dont_write_bytecode = True
    loader = importlib.machinery.SourceFileLoader("rtlib", str(kit() / "bin/rtlib.py"))
    made = importlib.util.module_from_spec(importlib.util.spec_from_loader("rtlib", loader))
    sys.modules["rtlib"] = made
    loader.exec_module(made)
    return made


def remembering(stamp):
    """A stamp sums the files of all crates below; this sums those of each crate once."""
    known = {}

    def of(crate):
        if crate.folder not in known:
            known[crate.folder] = stamp(crate)
        return known[crate.folder]

    return of


def crates_in(rtlib, top):
    """The crates of a repository by name, as `rt` knows them. This becomes the current folder."""
    os.chdir(top)
    return {crate.name: crate for crate in rtlib.crates_below(str(top))}


def tried(folder, text, *words):
    """Runs `rt try` on a text, in the folder of a crate: its output and its error output."""
    _, output, errors = run(["rt", "try", *words], text, cwd=folder, text=True)
    return output, errors


# ---------------------------------------------------------------- programs


def program(crate):
    """The file in which `rt run` and `rt ci` leave the program of a crate."""
    return CRATES / crate / "out" / crate


HIPPO = program("hippo")


def require(file, crate="hippo", words="-- run < stdin"):
    """Ends the tool where a program is not built, and says how to build it."""
    if not file.exists():
        sys.exit(f"{file} is not built: cd crates/{crate} && rt run {words}")


def run(words, given=b"", **more):
    """Runs a program on an input: its exit status, its output and its error output."""
    ran = subprocess.run(words, input=given, capture_output=True, **more)
    return ran.returncode, ran.stdout, ran.stderr


def processor_seconds():
    """The processor seconds of all programs that this tool has run to their end."""
    ended = resource.getrusage(resource.RUSAGE_CHILDREN)
    return ended.ru_utime + ended.ru_stime


# ---------------------------------------------------------------- the tool itself


@contextlib.contextmanager
def scratch(within=None):
    """A new folder, which is removed at the end of the `with` block."""
    with tempfile.TemporaryDirectory(dir=within) as folder:
        yield pathlib.Path(folder)


def end_with_usage(docstring):
    """Ends the tool with the last line of its docstring."""
    sys.exit(docstring.rstrip().rpartition("\n")[2])


def end_with(wrong):
    """Ends the tool, with status 1 where something was wrong."""
    sys.exit(f"{wrong} wrong" if wrong else None)


def times_each(counts):
    """How often each thing happened, in words."""
    return ", ".join(f"{what} {count} times" for what, count in sorted(counts.items()))


# ---------------------------------------------------------------- stores

# The table that holds the entries, in the words of stock SQLite.
HISTORY = (
    "history (seq INTEGER PRIMARY KEY, moment INTEGER NOT NULL, kind INTEGER NOT NULL, "
    "tbl TEXT NOT NULL, body BLOB NOT NULL) STRICT"
)
CREATE_HISTORY = f"CREATE TABLE IF NOT EXISTS {HISTORY}"
INSERT_ENTRY = "INSERT INTO history (seq, moment, kind, tbl, body) VALUES (?1, ?2, ?3, ?4, ?5)"
READ_ENTRIES = "SELECT seq, moment, kind, tbl, body FROM history ORDER BY seq"


def sound_entries(store):
    """The entries that stock SQLite reads in a store; None where the database is not sound."""
    import sqlite3  # (not every python3 has it, and few tools need it)

    with contextlib.closing(sqlite3.connect(store)) as connection:
        is_sound = connection.execute("PRAGMA integrity_check").fetchall() == [("ok",)]
        return connection.execute(READ_ENTRIES).fetchall() if is_sound else None


def remove_store(store):
    """Removes the file of a store, and the files that SQLite keeps with it."""
    for file in store.parent.glob(f"{store.name}*"):
        file.unlink()


# ---------------------------------------------------------------- calls that fail

# C that counts calls. The environment chooses one to fail; the count is written at the end.
COUNTING = r"""
#define _GNU_SOURCE
#include <stdio.h>
#include <stdlib.h>
#include <unistd.h>

static unsigned long calls, chosen;

__attribute__((constructor)) static void begin(void)
{
    const char *number = getenv("CHOSEN_CALL");
    calls = 0;
    chosen = number ? strtoul(number, NULL, 10) : 0;
}

__attribute__((destructor)) static void end(void)
{
    char text[32];
    int length = snprintf(text, sizeof text, "%lu", calls);
    if (write(3, text, length) != length)
        _exit(99);
}
"""


class Intercepted:
    """Runs hippo with some calls of the C library intercepted, in a folder with a store.

    The C source has functions of its own for these calls. They count in `calls`, and let the call
    with the number `chosen` fail.
    """

    def __init__(self, folder, source, *libraries):
        self.store = folder / "clinic.db"
        self.library = folder / "intercepting.so"
        written = self.library.with_suffix(".c")
        written.write_text(COUNTING + source)
        words = ["cc", "-O1", "-shared", "-fPIC", "-o", self.library, written, *libraries]
        subprocess.run(words, check=True)

    def call(self, words, text, chosen, **settings):
        """Its exit status, what it wrote, and how many calls it made; None where it was killed."""
        reader, writer = os.pipe()
        settings |= {"LD_PRELOAD": str(self.library), "CHOSEN_CALL": str(chosen)}
        how = {"env": settings, "preexec_fn": lambda: os.dup2(writer, 3), "pass_fds": (3,)}
        status, output, errors = run([HIPPO, *words], text, **how)
        os.close(writer)
        with open(reader, "rb") as pipe:
            calls = pipe.read()
        return status, (output + errors).decode(), int(calls) if calls else None
