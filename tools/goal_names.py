#!/usr/bin/env python3
"""In the answers of a crate, writes the parts of generated names as the code spells them: `put-number-place` is `put_number-place`.

usage: python3 tools/goal_names.py NAME..
"""

import glob
import os
import re
import sys

OWN = ["in_default", "in_ok", "in_err", "in_some", "in_none", "from_residual", "overflow_add", "overflow_sub", "overflow_mul", "overflow_neg", "i_in_bounds", "slice_known"]
WORD = re.compile(r"[A-Za-z_][\w'\-]*", re.ASCII)


def main():
    for crate in sys.argv[1:]:
        names = set(OWN)
        for folder, _, files in os.walk(f"crates/{crate}/src"):
            for f in files:
                names |= set(re.findall(r"[a-z][a-z0-9]*(?:_[a-z0-9]+)+", open(os.path.join(folder, f), encoding="utf-8").read()))
        names = sorted(names, key=lambda n: -n.count("_"))
        for path in glob.glob(f"crates/{crate}/proofs/**/*.antt", recursive=True):
            if os.path.basename(path) not in ("Answers.antt", "Invariants.antt"):
                continue
            text = open(path, encoding="utf-8").read()
            imported = set()
            for line in text.split("\n"):
                if line.startswith("use ") and ".Goals" not in line and ".Given" not in line:
                    imported |= set(WORD.findall(line))

            def turn(m):
                word = m.group(0)
                if "-" not in word or word in imported:
                    return word
                for n in names:
                    old = n.replace("_", "-")
                    word = re.sub(r"(?<![A-Za-z0-9_])" + re.escape(old) + r"(?![A-Za-z0-9_])", n, word)
                return word

            new = WORD.sub(turn, text)
            if new != text:
                open(path, "w", encoding="utf-8").write(new)


if __name__ == "__main__":
    main()
