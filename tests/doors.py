#!/usr/bin/env python3
# No public call asks anything: every `pub fn` of crates `running`, `calls` and `door` (01's open, act, run, tell) has an `ensures` and no `requires`.
# Functions of the crates below them may ask; only `door` is in the archive of `make lib` (docs/DECISIONS.md, What a door is).
import glob, os, re, sys

ROOT = os.path.normpath(os.path.join(os.path.dirname(os.path.abspath(__file__)), ".."))
found, wrong = [], []
for crate in ("running", "calls", "door"):
    for path in sorted(glob.glob(os.path.join(ROOT, "crates", crate, "src", "*.rt"))):
        for head in re.findall(r"^pub (?:extern \"C\" )?fn (\w+)(.*?)^\{", open(path, encoding="utf-8").read(), re.S | re.M):
            found.append(head[0])
            if re.search(r"^\s*requires\b", head[1], re.M) or not re.search(r"^\s*ensures\b", head[1], re.M):
                wrong.append("%s::%s" % (crate, head[0]))
expected = sorted(["open", "act", "run", "tell"] + ["curlywether_" + call for call in ("open", "act", "run", "tell")])
if sorted(found) != expected:
    sys.exit("doors: the public calls are %s, not %s" % (" ".join(sorted(found)), " ".join(expected)))
if wrong:
    sys.exit("doors: a public call asks something or promises nothing: " + " ".join(wrong))
