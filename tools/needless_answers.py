#!/usr/bin/env python3
"""Takes each Answers.antt of some crates away, checks its function, and puts it back: python3 tools/needless_answers.py CRATE..

A function that proves without its file is printed as needless. A cycle of functions is left out. Each takes some seconds."""
import os
import subprocess
import sys

top = os.path.dirname(os.path.dirname(os.path.abspath(__file__)))


def check(crate, *words):
    run = subprocess.run(["rt", "check", *words], cwd=os.path.join(top, "crates", crate), stdout=subprocess.PIPE, stderr=subprocess.STDOUT, text=True)
    return run.returncode == 0 or "only=1 proved=1" in run.stdout


for crate in sys.argv[1:]:
    if not check(crate):
        sys.exit(f"{crate} does not prove as it stands")
    proofs = os.path.join(top, "crates", crate, "proofs")
    for folder, _, files in os.walk(proofs):
        place = os.path.relpath(folder, proofs)
        if "Answers.antt" not in files or "+" in place:
            continue
        function = "::".join([crate, *place.split(os.sep)])
        path = os.path.join(folder, "Answers.antt")
        os.rename(path, path + ".away")
        try:
            proved = check(crate, "--only", function)
        finally:
            os.rename(path + ".away", path)
        print(function, "needless" if proved else "needed", flush=True)
