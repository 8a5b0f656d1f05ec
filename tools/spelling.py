#!/usr/bin/env python3
"""Brings the names of definitions and lemmas to snake case, once, after the kit's port.py.

usage: python3 tools/spelling.py    at the top of the repository

Only the names below change, and only in crates/: functions of src/, strings, inputs and outputs keep theirs.
"""

import os
import re
import sys

CAMEL = """
    adoptParts adoptingFrom boardOf bodyPlace bodySize bufferOf busCalls byDefault checkBody checkSub closingAt dialFormat differFrom
    divisorAccess dueAfter findFrom firstRefused fromLeft fromRight goesOn hasInput identityOf inOrder isNeeded isServed knownFrom
    latchOf leafCalls leftOut neededFrom needsIn nextIn numbersOf offDefault onRunning onStopped outOfTurn readData
    readIdentification readLineStatus readRegister refusalOf regA regB regC regD sectionAt sectionBy sectionOf settleBelow storedB
    subBody subSize ticksPerSecond titleOf tokenOf unknownFrom valueFrom withControls withDivisor withIndex withInterrupts withPhase
    withReceiver withRegisters withUpdated writeControl writeEnable writeRegister
"""


def snake(name):
    return re.sub(r"[A-Z]", lambda m: "_" + m.group(0).lower(), name)


NAMES = {name: snake(name) for name in CAMEL.split()} | {"Keeps-time": "KeepsTime", "keeps-time": "keeps_time"}
FOUND = re.compile(r"(?<![\w'])(" + "|".join(sorted(map(re.escape, NAMES), key=len, reverse=True)) + r")(?![\w'])")


def main():
    changed = 0
    for folder, dirs, files in os.walk("crates"):
        dirs[:] = sorted(d for d in dirs if d != "out")
        for name in sorted(files):
            if not name.endswith((".rt", ".antt", ".edit")):
                continue
            path = os.path.join(folder, name)
            with open(path, encoding="utf-8") as f:
                old = f.read()
            new = FOUND.sub(lambda m: NAMES[m.group(1)], old)
            if new != old:
                changed += 1
                with open(path, "w", encoding="utf-8") as f:
                    f.write(new)
    print(f"spelling: {changed} files changed")
    return 0


if __name__ == "__main__":
    sys.exit(main())
