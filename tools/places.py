"""Prints the lines of crates/*/src that may read like the older language, point by point.

    python3 tools/places.py [FOLDER] [--counts]

A line found is a candidate: docs/DESIGN-PASS.md says which are places, and what became of each.
"""

import pathlib
import re
import sys

POINTS = {
    "1 numbers, flags and sentinels": [
        r"\bfn \w+.*\) -> (bool|u8|u64|\(u8\b.*)$",
        r"^\) -> (bool|u8|u64)$",
        r"^\s+(pub(\(crate\))? )?(formed|refusal|outcome|parents): ",
        r"(=>|return|else \{) (0|16|255)\b",
        r"line: 0,|nowhere",
    ],
    "2 twins": [
        r"\bfn (after_\w+|narrowed|takes|joins|independent|refusal|spot|count|u\d+_in|put_both|put|number_bytes|gain_bytes)\b",
        r"\bfn (room_after\w*|put_lines?|put_places|set|fogetsu_\w+)\b",
    ],
    "3 indices counted by hand": [
        r"\b(while|loop)\b(?! let)",
        r"\bfor \w+ in \(?\w+\.\.",
        r"^\s+\w+ (\+|-|/)= (1|2|10|base|request\.length|due|\(rest % 2\) as usize);",
        r"return Some\(i\)",
    ],
    "4 conversions and the like by hand": [
        r"(Err|Ok)\((fault|refusal|_|n|\w+)\) => (return )?(Err|Ok|refused|\w+,)",
        r"\bnumber: 0,|\brecord: 0,|let none = \[0",
        r"-> anyhow::Result<usize>|fn number\(self\)|fn line_of\(",
    ],
    "5 facts repeated": [
        r"seen < 1000000|InRange |row\.now ≡|≤ length out\.old|length (left|labels|best)\.old ≡",
        r"\((matroid: &R, .*table|key: Key, .*place: Place|form: Form, value|x: Frame, g: u32|newcomer: Frame, g)",
    ],
    "6 buffers, parallel arrays, cursors": [
        r"^\s+(pub(\(crate\))? )?\w+: \[\w+; \d+\],$",
        r"\blen: usize,|\[x; 49\]|let mut (from|to|at) = 0",
    ],
    "7 switches and tables of functions": [
        r"\bdyn\b|\bFn(Mut|Once)?\b|\bfn\(|(chosen|wanted): bool",
    ],
}


def lines(folder):
    for path in sorted(folder.glob("crates/*/src/*.rt")):
        for number, line in enumerate(path.read_text().splitlines(), 1):
            if not line.strip().startswith(("//", "ghost use")):
                yield path.relative_to(folder), number, line


def main():
    args = [a for a in sys.argv[1:] if not a.startswith("--")]
    folder = pathlib.Path(args[0] if args else ".")
    for point, patterns in POINTS.items():
        tests = [re.compile(p) for p in patterns]
        found = [f for f in lines(folder) if any(t.search(f[2]) for t in tests)]
        print(f"point {point}: {len(found)} lines")
        if "--counts" not in sys.argv:
            for path, number, line in found:
                print(f"    {path}:{number}: {line.strip()}")
    answers = [p for p in folder.glob("crates/*/proofs/**/Answers.antt")]
    text = "\n".join(p.read_text() for p in answers)
    print(f"point 8 proofs: {len(answers)} files of answers, {len(re.findall('^pub ', text, re.M))} answers,"
          f" {len(re.findall('= search rules$', text, re.M))} of them `search rules` alone")
    older = [p for p in folder.glob("crates/*/specs/*.antt") if re.search(r"\b(eqb|leb|ltb|cond|get_or)\b", p.read_text())]
    print(f"point 8 specs: {len(older)} files of definitions with an older word")


main()
