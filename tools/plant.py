"""Plants bugs one at a time in a scratch copy of the crates, and tells what refuses each.

A bug is a block of lines in planted/CRATE.txt, a blank line between two: label (FUNCTION.WHAT, or DEFINITION.WHAT for a
file of specs/), file, old, new; `at`, where the old text is meant that stands first behind that text; `same`, why
behaviour does not differ. The must-fail edits of the crates are bugs too. A bug is checked in its own crate, and where
that passes and behaviour differs in each crate above it, with its tests and its program, until one fails. What came of
it is kept in planted/results.txt; a bug that stands there unchanged is not tried again. Each check begins with what
`rt check` kept in the repository: check all crates there first, and run nothing else there meanwhile.
"""
import argparse, hashlib, os, re, shlex, shutil, subprocess, sys, tempfile, time
from collections import Counter
from dataclasses import dataclass

HERE = os.path.dirname(os.path.abspath(__file__))
ROOT = os.path.dirname(HERE)
LISTS = os.path.join(HERE, "planted")
RESULTS = os.path.join(LISTS, "results.txt")
# What a check says of a name that is gone, or of text that is none: it shows nothing of the contract.
NAMES = re.compile(r"^error\[|` is not in scope|can be named from here|has no (field|`)|no such|is no name|operand is missing|expected the end|cannot continue|unexpected|cannot find|(was|were) not admitted")
# What is run besides, once a program is checked: a script, and what it is given in the crate's folder.
RUNS = {"digest": ["tools/check_digest.py", "out/digest"]}
FAULT = re.compile(r"^(?:note: )?(?:\./)?(\S+?):(\d+):\d+: (error(?:\[[\w-]+\])?: .*|it is not proved .*)$")
# A function whose open goals have no line of their own.
OPEN = re.compile(r"^fn (\S+): (no proof: .*?`search` did not prove `([^`]+)`.*)$", re.M)
GONE = re.compile(r"^(?:\./)?(proofs/\S+Answers\.antt):\d+:\d+: error: (?:.*\n  )?.*has no `([^`]+)` that can be named", re.M)


@dataclass
class Bug:
    crate: str
    label: str
    file: str
    old: str
    new: str
    at: str = ""
    same: str = ""
    edit: bool = False

    def name(self):
        return f"{self.crate}/{self.label}"

    def key(self):
        words = "\0".join([self.file, self.old, self.new, self.at])
        return hashlib.sha256(words.encode()).hexdigest()[:12]

    def planted(self, text):
        start = text.find(self.at) if self.at else 0
        where = text.find(self.old, start)
        if start < 0 or where < 0 or (not self.at and text.count(self.old) > 1):
            sys.exit(f"{self.name()}: the old text does not stand there once")
        return text[:where] + self.new + text[where + len(self.old):]


def blocks(path):
    block = {}
    with open(path, encoding="utf-8") as lines:
        for line in list(lines) + [""]:
            if not line.strip():
                if block:
                    yield block
                block = {}
            elif not line.startswith("#"):
                key, _, value = line.rstrip("\n").partition(":")
                block[key] = value[1:]


def crates():
    """Each crate with what it depends on, each behind those."""
    deps = {}
    with open(os.path.join(ROOT, "crates.txt"), encoding="utf-8") as lines:
        for line in lines:
            name, colon, rest = line.partition("#")[0].partition(":")
            if colon:
                deps[name.split()[0]] = rest.split()
    return deps


def bugs(edited=True):
    for crate in crates():
        listed = os.path.join(LISTS, crate + ".txt")
        for block in blocks(listed) if os.path.exists(listed) else []:
            yield Bug(crate, **block)
        edits = os.path.join(ROOT, "crates", crate, "must-fail")
        for name in sorted(os.listdir(edits)) if edited and os.path.isdir(edits) else []:
            for block in blocks(os.path.join(edits, name)):
                yield Bug(crate, name.removesuffix(".edit"), **block, edit=True)


def results():
    """By a bug's name: its key, the verdict, the crate that tells, the place, the need and the message."""
    found = {}
    if os.path.exists(RESULTS):
        with open(RESULTS, encoding="utf-8") as lines:
            for line in lines:
                name, *rest = line.rstrip("\n").split("\t")
                found[name] = rest
    return found


def record(bug, verdict):
    """Keeps a verdict, if there is one."""
    if not verdict:
        return
    found, named = results(), {other.name() for other in bugs()}
    found[bug.name()] = [bug.key(), *verdict]
    with open(RESULTS + ".new", "w", encoding="utf-8") as out:
        for name in sorted(named & set(found)):
            out.write("\t".join([name, *found[name]]) + "\n")
    os.replace(RESULTS + ".new", RESULTS)


def faults(log):
    """Each error and each open need of a log: the file, the line, and what is said of it."""
    found, last = [], None
    for line in log.splitlines():
        hit = FAULT.match(line)
        if hit:
            last = list(hit.groups())
            found.append(last)
        elif last and line.startswith("  "):
            last[2] += line[1:]
        else:
            last = None
    return found


def read_log(log, crate):
    """The verdict of the last check: refused by a fact, or for a name, or caught by a run, or survived; or that there is none."""
    if not crate:
        return ["survived", "", "", "", ""]
    found = faults(log)
    errors = [fault for fault in found if fault[2].startswith("error")]
    facts = [fault for fault in errors if not NAMES.search(fault[2])]
    for path, number, message in facts[:1] or errors[:1] or found[:1]:
        need = re.match(r"error: `([^`]+)`: |it is not proved .*?\(`([^`]+)`\)", message)
        verdict = "fact" if facts or not errors else "name"
        said = re.sub(r"\s+", " ", message.removeprefix("error: "))[:160]
        return [verdict, crate, f"{crate}/{path}:{number}", (need.group(1) or need.group(2)) if need else "", said]
    goal = OPEN.search(log)
    if goal:
        return ["fact", crate, goal.group(1), goal.group(3), goal.group(2)[:160]]
    said = [line for line in log.splitlines() if re.search(r"first difference|FAILED|differs|NOT|wrote|failed", line)]
    return ["run", crate, "", "", said[0][:160]] if said else []


class Scratch:
    def __init__(self, folder, via):
        self.folder, self.via = folder, shlex.split(via)
        self.logs = os.path.join(folder, "logs")
        os.makedirs(self.logs, exist_ok=True)
        self.fresh("crates")
        shutil.copy(os.path.join(ROOT, "crates.txt"), folder)

    def fresh(self, part):
        """Takes a folder from the repository anew, with what checks kept there, where it has one."""
        there, here = os.path.join(self.folder, part), os.path.join(ROOT, part)
        if os.path.isdir(here):
            shutil.rmtree(there, ignore_errors=True)
            shutil.copytree(here, there, symlinks=True)

    def at(self, *names):
        return os.path.join(self.folder, "crates", *names)

    def bytes_of(self, *names):
        path = self.at(*names)
        if not os.path.isfile(path):
            return b""
        with open(path, "rb") as file:
            return file.read()

    def ran(self, crate, *words, given=b""):
        """Runs a command in a crate's folder: whether all was well, what it wrote, and all that was said."""
        ran = subprocess.run([*self.via, *words], cwd=self.at(crate), input=given, stdout=subprocess.PIPE, stderr=subprocess.PIPE)
        return ran.returncode == 0, ran.stdout, (ran.stdout + ran.stderr).decode(errors="replace")

    def rt(self, crate, verb):
        passed, _, log = self.ran(crate, "rt", verb, "--jobs", "1")
        return passed, log

    def log(self, bug):
        return os.path.join(self.logs, bug.name().replace("/", "."))

    def tried(self, bug):
        """Plants, checks and takes the bug out again."""
        before = {}
        self.write(before, f"{bug.crate}/{bug.file}", bug.planted)
        try:
            crate, log = self.checked(bug)
            for _ in range(2):
                proof, old, new = self.step_renamed(crate, log)
                if not old:
                    break
                self.write(before, proof, lambda text: re.sub(rf"(?<![\w-]){re.escape(old)}(?![\w-])", new, text))
                crate, log = self.checked(bug)
        finally:
            for path, text in before.items():
                with open(path, "w", encoding="utf-8") as file:
                    file.write(text)
        with open(self.log(bug), "w", encoding="utf-8") as out:
            out.write(f"{crate}\n{log}")
        return read_log(log, crate)

    def write(self, before, name, change):
        path = self.at(name)
        with open(path, encoding="utf-8") as file:
            text = file.read()
        before.setdefault(path, text)
        with open(path, "w", encoding="utf-8") as file:
            file.write(change(text))

    def step_renamed(self, crate, log):
        """Where the bug gave a step of a proof another name: the proof, the old name, and a new one that is not answered yet."""
        gone = GONE.search(log)
        if gone:
            proof, old = f"{crate}/{gone.group(1)}", gone.group(2)
            stem, answers = old.rpartition("-")[0], self.bytes_of(proof).decode()
            asked = re.search(rf"`Goals` has no `{re.escape(old)}`; rattle asks for ([^;\n]*)", log)
            for new in re.findall(r"`([^`]+)`", asked.group(1)) if stem and asked else []:
                if new.startswith(stem) and not re.search(rf"\bgoal\.{re.escape(new)}(?![\w-])", answers):
                    return proof, old, new
        return "", "", ""

    def checked(self, bug):
        deps, reached = crates(), {bug.crate}
        try:
            passed, log = self.rt(bug.crate, "check")
            if not passed or bug.same:
                return "" if passed else bug.crate, log
            for crate in deps:
                if crate == bug.crate or reached & set(deps[crate]):
                    reached.add(crate)
                    passed, log = (True, "") if crate == bug.crate else self.rt(crate, "check")
                    if passed:
                        passed, log = self.runs(crate)
                    if not passed:
                        return crate, log
        finally:
            for crate in reached:
                self.fresh(os.path.join("crates", crate, "out"))
        return "", log

    def runs(self, crate):
        """Runs a proved crate's tests and its program: whether all is well, and what was said last."""
        passed, log = self.rt(crate, "test") if self.has_tests(crate) else (True, "")
        if passed and os.path.exists(self.at(crate, "src", "main.rt")):
            passed, log = self.program(crate)
        return passed, log

    def has_tests(self, crate):
        return any(b"#[test]" in self.bytes_of(crate, "src", name) for name in os.listdir(self.at(crate, "src")))

    def program(self, crate):
        """Builds a program, and holds it to its stored output, and to what is run besides."""
        passed, wrote, log = self.ran(crate, "rt", "run", "--jobs", "1", given=self.bytes_of(crate, "stdin"))
        if not passed or wrote != self.bytes_of(crate, "stdout"):
            return False, "what the program wrote, or its status, differs from what is stored\n" + log
        if crate in RUNS:
            passed, _, log = self.ran(crate, sys.executable, os.path.join(ROOT, RUNS[crate][0]), *RUNS[crate][1:])
        return passed, log


def wanted(words, edited):
    """The bugs of the words, those of the code first."""
    found = [bug for bug in bugs(edited) if not words or bug.crate in words or bug.name() in words]
    return sorted(found, key=lambda bug: bug.file.startswith("specs/"))


def told(bug, result):
    """What a table says of a bug."""
    verdict, crate, place, need, said = result
    if bug.same:
        return f"no difference: {bug.same}"
    if verdict in ("edit", "survived"):
        return {"edit": "a must-fail edit", "survived": "**survives**"}[verdict]
    if verdict == "run":
        return f"a run of `{crate}`: " + ("`tools/check_digest.py`" if said.startswith("first difference") else "its stored output")
    lemma = re.search(r"proofs/(\w+)\.antt", place)
    return (("" if crate == bug.crate else f"`{crate}`: ") + f"`{need or place}`" + (f" ({lemma.group(1)})" if lemma else "")
            + (", by name alone" if verdict == "name" else ""))


def tables():
    found, rows = results(), []
    for bug in bugs():
        key, *result = found.get(bug.name(), [""])
        if key == bug.key():
            rows.append((bug, result))
        elif bug.edit:
            rows.append((bug, ["edit", "", "", "", ""]))
    for title, head, below in (("Bugs in the code", "function", "src/"), ("Changed definitions", "definition", "specs/")):
        there = [row for row in rows if row[0].file.startswith(below)]
        kinds = Counter("same" if bug.same else result[0] for bug, result in there)
        print(f"### {title}\n\n{len(there)} planted: {kinds['fact']} refused by a fact, {kinds['edit']} more among the must-fail edits, "
              f"{kinds['run']} caught by a run, {kinds['same']} without a difference, {kinds['name']} refused for a name alone, "
              f"{kinds['survived']} survive.\n\n| crate | {head} | change | refused by |\n|---|---|---|---|")
        for bug, result in there:
            what, _, change = bug.label.partition(".")
            print(f"| {bug.crate} | `{what}` | {change.replace('_', ' ')} | {told(bug, result)} |")
        print()


def main():
    options = argparse.ArgumentParser(description=__doc__, formatter_class=argparse.RawDescriptionHelpFormatter)
    options.add_argument("words", nargs="*", metavar="CRATE | CRATE/LABEL")
    options.add_argument("--again", action="store_true", help="try those that planted/results.txt has, too")
    options.add_argument("--listed", action="store_true", help="leave the must-fail edits out")
    options.add_argument("--reread", action="store_true", help="read the kept logs again, and run nothing")
    options.add_argument("--table", action="store_true", help="print the tables of docs/PROOFS.md")
    options.add_argument("--via", default="", metavar="CMD", help="what to put before each check")
    options.add_argument("--scratch", default=os.path.join(tempfile.gettempdir(), "planted"), metavar="FOLDER", help="where to work")
    asked = options.parse_args()
    if asked.table:
        return tables()
    scratch = Scratch(asked.scratch, asked.via)
    for bug in wanted(asked.words, not asked.listed):
        known = results().get(bug.name(), [""])[0] == bug.key()
        start = time.time()
        if asked.reread and known and os.path.exists(scratch.log(bug)):
            with open(scratch.log(bug), encoding="utf-8") as file:
                crate, _, log = file.read().partition("\n")
            record(bug, read_log(log, crate))
        elif not asked.reread and (asked.again or not known):
            verdict = scratch.tried(bug)
            record(bug, verdict)
            said = " | ".join(verdict) or f"no verdict: {scratch.log(bug)}"
            print(f"{time.strftime('%H:%M:%S')} {time.time() - start:4.0f} s  {bug.name()}: {said}", flush=True)


if __name__ == "__main__":
    main()
