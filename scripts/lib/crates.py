"""The crates of the repository, as crates.txt has them, and copies of them."""
import pathlib
import shutil

TOP = pathlib.Path(__file__).resolve().parents[2]
# What a proof doesn't read.
BESIDE = ("out", "must-fail", "more-edits", "test-edits")


def crates_in(text):
    """Of each crate its line, and the crates and libraries that this names."""
    found = {}
    for line in text.splitlines():
        name, _, names = line.partition("#")[0].partition(":")
        if name.strip():
            found[name.split()[0]] = line, names.split()
    return found


def all_crates():
    return crates_in((TOP / "crates.txt").read_text(encoding="utf-8"))


def below(crate, crates):
    """A crate and those below it."""
    found, left = [], [crate]
    for name in left:
        if name in crates and name not in found:
            found.append(name)
            left += crates[name][1]
    return found


def copy_crates(names, crates, folder, leave_out=BESIDE):
    """Copies just these crates, with their lines of crates.txt."""
    for name in names:
        if (TOP / "crates" / name).is_dir():
            shutil.copytree(TOP / "crates" / name, folder / "crates" / name, ignore=shutil.ignore_patterns(*leave_out))
    (folder / "crates.txt").write_text("".join(f"{crates[name][0]}\n" for name in names))
    shutil.copy(TOP / "HANDLES", folder / "HANDLES")
