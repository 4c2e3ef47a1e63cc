"""kept.py: answers questions one after another, as a process of its own would answer each, but with the module `wadlook` loaded once.

A question comes on standard input, in words with a NUL behind each: a folder, how many words follow, and these, the words of `python -m
wadlook`, or `found` and the words of found.py. Its own input is the file `input`, and its output goes to the files `output` and `error` in
the folder. Its status comes on standard output, in a line.
"""

import os
import pathlib
import runpy
import sys
import traceback

FOUND = str(pathlib.Path(__file__).with_name("found.py"))


def words_in(source):
    """The words that come."""
    rest = b""
    while more := os.read(source, 1 << 16):
        *words, rest = (rest + more).split(b"\0")
        yield from map(os.fsdecode, words)


def status_of(words):
    """Runs what the words ask, and returns the status."""
    try:
        if words[0] == "found":
            sys.argv = [FOUND, *words[1:]]
            runpy.run_path(FOUND, run_name="__main__")
        else:
            sys.argv = ["wadlook", *words]
            runpy.run_module("wadlook", run_name="__main__", alter_sys=True)
    except SystemExit as why:
        return why.code or 0
    except BaseException:
        traceback.print_exc()
        return 1
    return 0


def answer(folder, words):
    """The status of a question, whose output goes to the folder."""
    to = {"mode": "w", "encoding": "utf-8", "errors": "surrogateescape"}
    with open("input") as sys.stdin, open(f"{folder}/output", **to) as sys.stdout, open(f"{folder}/error", **to) as sys.stderr:
        return int(status_of(words))


def main():
    words = words_in(0)
    for folder in words:
        asked = [next(words) for _ in range(int(next(words)))]
        print(answer(folder, asked), file=sys.__stdout__, flush=True)


main()
