#!/usr/bin/env python3
"""The crate log is worklog: today's Rattle has a library named log. In crates/, crates.txt and the edits. Run once, at the top."""

import glob
import os
import re
import subprocess

if os.path.isdir("crates/log"):
    subprocess.run(["git", "mv", "crates/log", "crates/worklog"], check=True)
files = [f for e in ("antt", "rt", "edit") for f in glob.glob(f"crates/*/**/*.{e}", recursive=True) if "/out/" not in f]
for f in files + ["crates.txt"]:
    with open(f, encoding="utf-8") as it:
        text = it.read()
    new = text.replace("Rattle.log.", "Rattle.worklog.")
    new = re.sub(r"(?<![\w.:])log::", "worklog::", new)
    new = re.sub(r"(?m)^use log;", "use worklog;", new)
    if f == "crates.txt":
        new = re.sub(r"(?<=[ \n])log(?=[ :\n])", "worklog", new)
    if new != text:
        with open(f, "w", encoding="utf-8") as it:
            it.write(new)
