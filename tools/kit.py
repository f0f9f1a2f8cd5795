#!/usr/bin/env python3
"""Where the toolchain's command `rt` is: prints its path, or says in a line that it is missing.

    tools/kit.py
"""
import os
import shutil
import sys

FOLDER = "/opt/rattle/bin"


def rt():
    """The path of `rt`: what RT names, or else `rt` in PATH or in the kit's folder. Where there is none the program ends."""
    named = os.environ.get("RT")
    found = shutil.which(named) if named else shutil.which("rt") or shutil.which("rt", path=FOLDER)
    if not found:
        sought = f"RT={named} is no command" if named else f"no command rt in PATH or in {FOLDER}; RT=/path/to/rt names it"
        sys.exit(f"the Rattle kit, which proves and builds rawk, is missing: {sought}")
    return os.path.abspath(found)


if __name__ == "__main__":
    print(rt())
