#!/usr/bin/env python3
"""words.py --wadlens PATH [--library out] [--rounds 15] [--calls 3] FILE...: `check --map` of files, by calls of libwadlook and by the program.

A caller reads the files first, and then makes the call so many times: in C wadlook_run, in C wadlook_check with a callback, by `words.c`, and
in Python `check`, which makes an object of each finding. What is told is the processor time of one call, beside that of the whole program,
which reads the files: the least of so many rounds by turns, in each of which the program runs as often as a call is made. wadlook_run has to
write the program's bytes, and the others have to find as many as the program has lines for.
"""

import argparse
import os
import pathlib
import resource
import subprocess
import sys
import tempfile

TOP = pathlib.Path(__file__).resolve().parent.parent
IN_PYTHON = """
import sys, time, wadlook
files = [(path, open(path, "rb").read()) for path in sys.argv[2:]]
for _ in range(int(sys.argv[1])):
    before = time.process_time()
    found = wadlook.check(files)
    print(time.process_time() - before, file=sys.stderr)
print(len(found))
"""


def spent():
    """The seconds of the processor that all programs took that have ended."""
    used = resource.getrusage(resource.RUSAGE_CHILDREN)
    return used.ru_utime + used.ru_stime


def whole(words, calls):
    """What a program prints, and the least seconds of the processor that it takes, of so many runs."""
    least, said = float("inf"), b""
    for _ in range(calls):
        before = spent()
        said = subprocess.run(words, stdout=subprocess.PIPE, stderr=subprocess.DEVNULL, check=False).stdout
        least = min(least, spent() - before)
    return said, least


def called(words, environment):
    """What a caller prints, and the least of the seconds that it tells, a line for each call."""
    ran = subprocess.run(words, capture_output=True, env=environment, check=True)
    return ran.stdout, min(map(float, ran.stderr.split()))


def built(library, folder):
    """The caller in C, linked with the archive."""
    program = os.path.join(folder, "words")
    source = TOP / "bench" / "words.c"
    subprocess.run(["cc", "-O3", f"-I{library}/include", "-o", program, source, f"{library}/lib/libwadlook.a"], check=True)
    return program


def differ(said):
    """What the ways tell apart, if they do."""
    if said["wadlook_run"] != said["the program"]:
        return "the program and wadlook_run write other bytes"
    lines = sum(b" levels in " not in line for line in said["the program"].splitlines())
    others = {name: int(said[name]) for name in ("wadlook_check", "Python")}
    return "" if set(others.values()) == {lines} else f"the program has {lines} lines of findings, and the callers have {others}"


def main():
    parser = argparse.ArgumentParser(description=__doc__.splitlines()[0])
    parser.add_argument("--wadlens", required=True)
    parser.add_argument("--library", default=TOP / "out")
    parser.add_argument("--rounds", type=int, default=15)
    parser.add_argument("--calls", type=int, default=3)
    parser.add_argument("files", nargs="+")
    o = parser.parse_args()
    environment = {**os.environ, "PYTHONPATH": str(TOP / "python"), "LD_LIBRARY_PATH": f"{o.library}/lib"}
    with tempfile.TemporaryDirectory() as folder:
        caller, given = built(o.library, folder), [str(o.calls), *o.files]
        ways = {
            "the program": lambda: whole([o.wadlens, "check", "--map", "--max=0", *o.files], o.calls),
            "wadlook_run": lambda: called([caller, "run", *given], environment),
            "wadlook_check": lambda: called([caller, "check", *given], environment),
            "Python": lambda: called([sys.executable, "-c", IN_PYTHON, *given], environment),
        }
        least, said = dict.fromkeys(ways, float("inf")), {}
        for _ in range(o.rounds):
            for name, way in ways.items():
                said[name], seconds = way()
                least[name] = min(least[name], seconds)
    why = differ(said)
    if why:
        sys.exit(why)
    print("| | seconds | of the program's |\n|---|---|---|")
    for name, seconds in least.items():
        print(f"| {name} | {seconds:.3f} | {seconds / least['the program']:.2f} |")


if __name__ == "__main__":
    main()
