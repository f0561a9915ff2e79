#!/usr/bin/env python3
"""Lists parameters that always travel together and clauses that stand in three or more contracts, at a commit: tools/parameters.py COMMIT."""
import collections
import re
import subprocess
import sys


def git(*args):
    return subprocess.run(["git", *args], capture_output=True, text=True, check=True).stdout


at = sys.argv[1] if len(sys.argv) > 1 else "HEAD"
files = [f for f in git("ls-tree", "-r", "--name-only", at, "crates").split() if re.match(r"crates/[^/]*/src/.*\.rt$", f)]
functions = []
clauses = collections.Counter()
for file in files:
    text = git("show", f"{at}:{file}")
    for m in re.finditer(r"\bfn (\w+)(<[^(]*>)?\(([^)]*)\)", text):
        names = {re.sub(r"\bmut ", "", p.strip()).split(":")[0].strip() for p in m.group(3).split(",") if ":" in p}
        functions.append((file.replace("crates/", "").replace("src/", "") + ":" + m.group(1), names))
    for m in re.finditer(r"^ *(?:requires|ensures)[ a-z_]*\{(.*)\}", text, re.M):
        clauses[m.group(1).strip()] += 1
count = collections.Counter(name for _, names in functions for name in names)
for name in sorted(count):
    for other in sorted(count):
        if count[name] >= 3 and name != other and all(other in names for _, names in functions if name in names):
            print(f"    {name} always with {other}:", ", ".join(f for f, names in functions if name in names))
for clause, times in clauses.most_common():
    if times >= 3:
        print(f"    {times} contracts: {clause}")
