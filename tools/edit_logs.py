#!/usr/bin/env python3
"""Writes what a check says of each must-fail edit, whole, to target/must-fail/CRATE/EDIT.log.

usage: python3 tools/edit_logs.py [CRATE..]        at the top of the repository; of all crates, or of these

`rt ci` tries the edits too, and says the first line alone of what it finds. Each edit is made on a copy of crates/, in a temporary folder.
"""

import glob
import os
import shutil
import subprocess
import sys
import tempfile
import threading


def pairs(edit):
    """What the edit turns: (file, old text, new text), in its order."""
    found, path, old = [], None, None
    with open(edit, encoding="utf-8") as it:
        for line in it.read().split("\n"):
            word, _, text = line.partition(": ")
            if word == "file":
                path = text
            elif word == "old":
                old = text
            elif word in ("new", "new:"):
                found.append((path, old, text))
    return found


def edited(crate, edit):
    """The files of the crate that the edit turns, with their texts as they are and as they become."""
    was, now = {}, {}
    for path, old, new in pairs(edit):
        if path not in now:
            with open(os.path.join(crate, path), encoding="utf-8") as it:
                was[path] = now[path] = it.read()
        if now[path].count(old) != 1:
            raise ValueError(f"its old text stands {now[path].count(old)} times in {path}: {old}")
        now[path] = now[path].replace(old, new)
    return was, now


def write(crate, texts):
    for path, text in texts.items():
        with open(os.path.join(crate, path), "w", encoding="utf-8") as it:
            it.write(text)


def log_name(edit):
    _, crate, _, name = edit.split("/")
    return f"target/must-fail/{crate}/{name.removesuffix('.edit')}.log"


def log_of(room, edit):
    """Checks the edit's crate in the room with the edit in it, writes what was said, and puts the files back."""
    crate = os.path.join(room, os.path.dirname(os.path.dirname(edit)))
    was, now = edited(crate, edit)
    write(crate, now)
    said = subprocess.run(["rt", "check"], cwd=crate, stdin=subprocess.DEVNULL, stdout=subprocess.PIPE, stderr=subprocess.STDOUT, errors="replace")
    write(crate, was)
    os.makedirs(os.path.dirname(log_name(edit)), exist_ok=True)
    with open(log_name(edit), "w", encoding="utf-8") as it:
        it.write(said.stdout)


def work(edits, rooms, wrong):
    """Takes edits while there are any, in a room of its own, and adds to what went wrong."""
    room = tempfile.mkdtemp(prefix="edits-", dir=rooms)
    for path in ["crates.txt", "HANDLES"]:
        if os.path.exists(path):
            shutil.copy(path, room)
    shutil.copytree("crates", os.path.join(room, "crates"), ignore=shutil.ignore_patterns("out"))
    while True:
        try:
            edit = edits.pop(0)
        except IndexError:
            return
        try:
            log_of(room, edit)
        except (OSError, ValueError) as it:
            wrong.append(f"{edit}: {it}")


def main():
    crates = sys.argv[1:] or sorted(os.listdir("crates"))
    edits = [e for c in crates for e in sorted(glob.glob(f"crates/{c}/must-fail/*.edit"))]
    for edit in edits:
        if os.path.exists(log_name(edit)):
            os.remove(log_name(edit))
    wrong, wanted = [], list(edits)
    rooms = tempfile.mkdtemp(prefix="zundernetz-")
    try:
        workers = [threading.Thread(target=work, args=(edits, rooms, wrong)) for _ in range(os.cpu_count() or 1)]
        for it in workers:
            it.start()
        for it in workers:
            it.join()
    finally:
        shutil.rmtree(rooms)
    wrong += [f"{edit}: there is no log of it" for edit in wanted if not os.path.exists(log_name(edit))]
    print("\n".join(wrong), end="\n" if wrong else "")
    return 1 if wrong else 0


if __name__ == "__main__":
    sys.exit(main())
