#!/usr/bin/env python3
"""Counts, in crates/*/src at a commit or in the tree, the places that docs/DESIGN-PASS.md speaks of.

    python3 tools/design_places.py [COMMIT] [--list]
"""
import re
import subprocess
import sys

PATTERNS = {
    1: [
        ("a refusal as an Option", r"-> Option<(Misfit|Fault)>"),
        ("an enum of the shape of Result", r"\bRefuses\(Fault\)"),
        ("a flag or a number for a kind", r"\b(fresh|marked): bool\b|\bsides: usize,|^    pub columns: usize,\n    pub sides|Result<bool,|Result<Option<Job>"),
        ("a number or a truth for nothing", r"fn \w+\(\) -> (u8|bool)\b"),
        ("an order by a number", r"\border: i64\b"),
        ("a result beside a value", r"\bmade: Result<"),
    ],
    2: [
        ("a settling of records beside that of entries", r"fn (settle_records|records_lie|note_records)\b"),
        ("a loop for the length of a run", r"for \(i, b\) in \w+\.iter\(\)\.enumerate\(\) \{\n\s+if !"),
        ("one place of a slice written", r"fn store<"),
        ("the items before and behind a mark", r"fn add_[uv]<E: Extent>\(into"),
        ("entries of one kind", r"fn (plain|twin)_entries\b"),
        ("a cell looked at by its kind", r"fn (give_up_begun|fresh_at|begun_at|is_at)\b"),
        ("a call that hands its cell back", r"Err\(Refusal \{ cell, fault \}\)"),
        ("kinds of extent", r"^impl Extent for "),
        ("a value with its end", r"pub(?:\(crate\))? struct (Lexeme|Length|Glue|Amount|Measure|Dimen|Stretch)\b"),
    ],
    3: [
        ("a loop over a range of numbers, or a while", r"^\s*(for \w+ in [^\n(]*\.\.[^\n]*\{|while )"),
        ("an index from enumerate that is answered or looks up", r"for \((\w+), [^\n]*enumerate\(\)[^\n]*\{(?:\n[^\n]*){1,4}?(?:\[\1\b|return (?:Some\()?\1\b|, \1\)|\1\.saturating_add)"),
        ("a loop that does what a method does", r"^\s*for (\w+|_) in [^\n.]*(\.\.\w+)? \{\n\s+(if !?[^\n]*\{\n\s+return|\w+ (\+)?= |\w+\.push\()"),
        ("a count carried by hand", r"(\w+) = \1\.saturating_add\(1\)"),
    ],
    4: [
        ("a number of an enum by hand", r"fn (number|from_number|kind_number|store_number)\b"),
        ("an enum told apart by hand", r"fn is_(open|fresh|begun)\b"),
        ("an Option turned by hand", r"None => (None|0|false|E::zero\(\)|Err\([^)]*\)|Ok\(\(\)\)),|Err\(_\) => Err\("),
        ("a range by two comparisons", r"\b\w+ < -?[\w.]+ \|\| \w+ > |<= \w+(\.\w+)? && \w+(\.\w+)? <= |>= b'0' && b <= b'9'"),
    ],
    5: [
        ("state, memory and preamble together", r"state: &(mut )?State<E>,?\s+memory: &(mut )?Memory<E>"),
        ("the preamble's memory and its reading together", r"into: &mut Templates<[^>]*(>|::Extent>),?\s+hand: Hand<"),
        ("bytes and a place in them together", r"out: &mut \[u8\], start: usize"),
        ("a clause on all five facts of a measurer", r"ByMeaning M\."),
        ("a span table's cells and columns", r"cells: &(mut )?\[Option<E>\], columns: usize"),
        ("a clause that the table's invariant holds", r"(requires|ensures)( good)? \{ Good "),
        ("a clause that marks fit memory", r"(requires|ensures) fit \{"),
        ("a clause that a hand fits the memory", r"requires( fits)? \{ Fits \w+ into\.old"),
        ("a clause on the cells of a span table", r"requires \{[^\n]*columns \* 32 ≤ length"),
        ("the three numbers of a list", r"list\.entry\.width list\.entry\.height"),
    ],
    6: [
        ("an array beside one of the same length", r"pub (widths|gaps): (\[|&'a \[)"),
        ("a list searched by hand", r"fn first_spelled\b"),
        ("a buffer with a mark beside it", r"pub (laid|marks): Marks"),
    ],
    7: [
        ("a switch on the bytes of a run", r"Run::\w+"),
        ("a switch on the kind of cell", r"if fresh \{"),
        ("a switch on the number of sides", r"job\.sides == 2|self\.sides == 2|sides == 2"),
    ],
}


def sources(commit):
    if commit is None:
        names = subprocess.check_output(["git", "ls-files", "crates/*/src/*.rt", "crates/*/src/**/*.rt"], text=True).split()
        return {name: open(name, encoding="utf-8").read() for name in sorted(set(names))}
    listed = subprocess.check_output(["git", "ls-tree", "-r", "--name-only", commit, "crates"], text=True).split()
    names = [name for name in listed if "/src/" in name and name.endswith(".rt")]
    return {name: subprocess.check_output(["git", "show", f"{commit}:{name}"], text=True) for name in names}


def main():
    words = [word for word in sys.argv[1:] if not word.startswith("--")]
    texts = sources(words[0] if words else None)
    for point, patterns in PATTERNS.items():
        total = 0
        for what, pattern in patterns:
            places = [
                (name, text[: match.start()].count("\n") + 1)
                for name, text in texts.items()
                for match in re.finditer(pattern, text, re.MULTILINE)
            ]
            total += len(places)
            print(f"{point}  {len(places):4}  {what}")
            if "--list" in sys.argv:
                for name, line in places:
                    print(f"           {name}:{line}")
        print(f"{point}  {total:4}  in all\n")


main()
