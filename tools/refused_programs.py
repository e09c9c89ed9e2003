#!/usr/bin/env python3
"""Shows which programs the checker refuses: copies of crates/two_rows that use a session as it may not be used. Each edit below is applied to a
copy, which `rt check` must refuse with just this one error; the copy with no edit must run and print what it is to print. The checkout stays as
it is. `rt check` refuses such a program before it builds or proves any library. That the program with no edit is also proved is for `rt ci`
to say."""
import re
import shutil
import subprocess
import sys
import tempfile
from concurrent.futures import ThreadPoolExecutor
from pathlib import Path
from typing import NamedTuple

ROOT = Path(__file__).resolve().parent.parent
PROGRAM = Path("crates/two_rows")
SOURCE = PROGRAM / "src/main.rt"
SECONDS = 600
AT_ONCE = 4


class Edit(NamedTuple):
    does: str
    old: str
    new: str
    error: str


PRINT_FIRST = "    print_value(rt, first)?;\n"
CLOSE = "            let _tray = session.close(Some(slip));\n"

EDITS = [
    Edit(
        "fetches while it holds a value of the last row",
        PRINT_FIRST,
        "    session.fetch(arena).map_err(in_words)?;\n" + PRINT_FIRST,
        "error[borrow-e0502]: cannot borrow `*session` as mutable because it is also borrowed as immutable",
    ),
    Edit(
        "fetches into another arena while it holds a value",
        PRINT_FIRST,
        "    session.fetch(&mut [0; 256]).map_err(in_words)?;\n" + PRINT_FIRST,
        "error[borrow-e0502]: cannot borrow `*session` as mutable because it is also borrowed as immutable",
    ),
    Edit(
        "writes to the arena while it holds a value",
        PRINT_FIRST,
        "    arena[0] = 0;\n" + PRINT_FIRST,
        "error[borrow-e0506]: cannot assign to `arena[_]` because it is borrowed",
    ),
    Edit(
        "lets its slip go",
        CLOSE,
        "            let _tray = session.close(None);\n",
        "error[linear-value-let-go]: `slip` is let go where its block ends, and `Slip` is not `Drop`",
    ),
    Edit(
        "makes a slip",
        "session.close(None)",
        "session.close(Some(session::Slip { mark: () }))",
        "error[private-field]: field `mark` of struct `Slip` is private",
    ),
    Edit(
        "spends its slip twice",
        CLOSE,
        "            let _other = Session::new(Tray::new(0)).close(Some(slip));\n" + CLOSE,
        "error[borrow-e0382]: use of moved value: `slip`",
    ),
]


def run(copy, command):
    """What a command in a copy of the program says, and with what status it ends."""
    done = subprocess.run(
        ["rt", command], cwd=copy / PROGRAM, stdin=subprocess.DEVNULL, stdout=subprocess.PIPE, stderr=subprocess.STDOUT, text=True, timeout=SECONDS
    )
    return done.returncode, done.stdout


def make_copy(folder):
    """A copy of the crates, with nothing that an earlier check left."""
    folder.mkdir()
    shutil.copytree(ROOT / "crates", folder / "crates", ignore=shutil.ignore_patterns("out"))
    for name in ["crates.txt", "HANDLES"]:
        if (ROOT / name).exists():
            shutil.copy(ROOT / name, folder)
    return folder


def refused(edit, copy):
    """Whether the edited program is refused as it must be, and the error; or what went wrong."""
    text = (copy / SOURCE).read_text()
    if text.count(edit.old) != 1:
        return False, f"its text does not stand once in {SOURCE}"
    (copy / SOURCE).write_text(text.replace(edit.old, edit.new))
    status, said = run(copy, "check")
    errors = [line for line in said.splitlines() if "error[" in line]
    if status != 1 or len(errors) != 1:
        return False, f"status {status}, {len(errors)} errors:\n{said}"
    told = re.sub(r"^.*?(?=error\[)", "", errors[0])
    if not told.startswith(edit.error):
        return False, f"another error: {told}"
    return True, errors[0]


def accepted(copy):
    """Whether the program with no edit runs and prints what it must, and the last line that says so; or what went wrong."""
    status, said = run(copy, "try")
    if status != 0 or not said.startswith((ROOT / PROGRAM / "stdout").read_text()):
        return False, f"status {status}:\n{said}"
    return True, said.splitlines()[-1]


def main():
    with tempfile.TemporaryDirectory() as folder, ThreadPoolExecutor(AT_ONCE) as pool:
        copies = [make_copy(Path(folder) / str(i)) for i in range(len(EDITS) + 1)]
        whole = pool.submit(accepted, copies[0])
        tries = [pool.submit(refused, edit, copy) for edit, copy in zip(EDITS, copies[1:])]
        outcomes = [(f"refused: it {edit.does}", each.result()) for edit, each in zip(EDITS, tries)]
        outcomes.append(("accepted: no edit", whole.result()))
    for what, (good, told) in outcomes:
        print(f"{'ok' if good else 'FAILED'}: {what}: {told}")
    if not all(good for _, (good, _) in outcomes):
        sys.exit("refused_programs: not every program was judged as it must be")


if __name__ == "__main__":
    main()
