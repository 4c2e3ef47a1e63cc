"""found.py [OPTION]... FILE...: prints what `wadlook.check` finds. The options are those of `wadlens check` that say what is looked for."""

import sys

import wadlook
from wadlook import _program


def main(words):
    asked = _program._parser().parse_args(_program._ordered(["check", *words]))
    try:
        found = wadlook.check(asked.files, asked.base, map=asked.map, wide=asked.wide, ignore=",".join(asked.ignore))
    except (wadlook.Refusal, OSError) as why:
        print(f"wadlens: {why}")
        return
    print(*found, sep="\n", end="\n" if found else "")


main(sys.argv[1:])
