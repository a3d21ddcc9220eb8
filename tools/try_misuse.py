#!/usr/bin/env python3
"""Tries each misuse of a token (crates/token/misuse/*.edit) on a copy of the crates. None may compile: prints why each is refused, and ends with status 1 where
one is not. It needs the Rattle toolchain, and the crates below `token` proved once (rt check), else it proves them first."""
import pathlib, re, shutil, subprocess, sys, tempfile

TOP = pathlib.Path(__file__).resolve().parent.parent


def edited(crate, edit):
    """Applies the lines file:, old:, new: of an edit; each old text stands once in its file."""
    path = old = None
    for line in edit.read_text().splitlines():
        if line.startswith("file: "):
            path = crate / line[6:]
        elif line.startswith("old: "):
            old = line[5:]
        elif line.startswith("new:"):
            text = path.read_text()
            if text.count(old) != 1:
                sys.exit(f"{edit.name}: {old!r} stands {text.count(old)} times in {path.name}")
            path.write_text(text.replace(old, line[5:]))


def main():
    compiled = 0
    for edit in sorted((TOP / "crates/token/misuse").glob("*.edit")):
        with tempfile.TemporaryDirectory() as copy:
            crates = pathlib.Path(copy) / "crates"
            shutil.copytree(TOP / "crates", crates, ignore=shutil.ignore_patterns("out"))
            shutil.copy(TOP / "crates.txt", copy)
            edited(crates / "token", edit)
            check = subprocess.run(["rt", "check"], cwd=crates / "token", capture_output=True, text=True)
            said = check.stdout + check.stderr
            reason = re.search(r"\[(linear|borrow)-[a-z0-9-]+\][^\n]*", said)
            if check.returncode == 0 or not reason:
                compiled += 1
            print(f"{edit.stem}: {reason.group(0) if reason else 'NOT REFUSED as a misuse'}")
    sys.exit(1 if compiled else 0)


main()
