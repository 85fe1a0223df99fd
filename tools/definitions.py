#!/usr/bin/env python3
"""Which definitions the public contracts rest on, and whether docs/DEFINITIONS.md has them all.

    python3 tools/definitions.py            lists what is wrong; prints nothing and ends with 0 where nothing is
    python3 tools/definitions.py --write    writes the first list of docs/DEFINITIONS.md
    python3 tools/definitions.py --calls    prints each public call, and the definitions that its sentences name
    python3 tools/definitions.py --list     prints each definition that is rested on, with its file, and a call that names it
    python3 tools/definitions.py --between  prints each definition of specs/ that no public contract rests on, by file, with its comment
    python3 tools/definitions.py --crossing prints those of these that another crate speaks of, and which do
    python3 tools/definitions.py --way CRATE.NAME ..
                                            prints all that these definitions rest on, by file, with their numbers and lines

A definition is what stands in crates/NAME/specs. A public contract is the clauses of a function that a crate offers, of
a trait or of an impl, with the ghost members and the values that clauses see; functions whose names begin with `worked_`
are rows beside the definitions and count for none. A contract rests on each definition that it names, and on each that
those name, and so on. How a value is kept (its view, its invariant) is nothing that a caller rests on.

A word that is carried is none of them: a call gives it of what it makes, others keep it, and the rest use it as a premise, so
that what they say follows whatever the word means. Each clause that names one is looked at: it stands there in one of these
three ways, or as the word that a value gives for `stands` of `Taker`, or the script says so.

In docs/DEFINITIONS.md the first list begins at the first heading of the third rank behind `## What the public calls rest on`,
and is written here: for each crate a table, with each file of its specs/, what the comment at its head says, and the definitions
that are rested on, with the comment that speaks of them, or where there is none with what they say. No two definitions of a crate
have the same name.

The other definitions of specs/, but those of files named `Worked`, have a comment: the last one before them in their file,
at its head, above them or above those before them. A line `-- ----` begins a part, of which no comment before it speaks. One
without a comment has a row under the heading `## Words between the parts`: the crate in the first column, the name in the
second.
"""
import pathlib
import re
import signal
import sys

TOP = pathlib.Path(__file__).resolve().parent.parent
PAGE = TOP / "docs" / "DEFINITIONS.md"
LIST = "## What the public calls rest on"
BETWEEN = "## Words between the parts"
WORKED = "Worked"
WORD = re.compile(r"(?<![\w.'⟧])([^\W\d][\w']*)(?:\.([^\W\d][\w']*))?")
IMPORT = re.compile(r"^(?:pub )?use\s+([\w.]+?)(?:\.\{([^}]*)\}|\s+as\s+(\w+))?\s*$", re.M)
GHOST_IMPORT = re.compile(r"\bghost\s+use\s+([\w.]+?)(?:\.\{([^}]*)\}|\s+as\s+(\w+))?\s*;")
HEAD = re.compile(r"^(?:(?:abbrev|unfoldable|opaque) pub|pub (?:record|data|abbrev|enum)) ([^\s:]+)", re.M)
STEPS = "◌>>=◌"
# the words that are carried: what a judge stands for, or what a noter notes, and the values of judges, which nothing else speaks of
CARRIED = {("witness", "WordStands", "StandsForWitness"), ("witness", "BitStands", "StandsForBits"), ("witness", "BitStands", "StandsForBitLines"), ("rises", "Notes", "NotesBits"), ("drup", "ProofJudges", "StandsForText"), ("lrat", "LratJudges", "StandsForLrat")}
CARRIED_VALUES = {("witness", "WordStands", "WordJudge"), ("witness", "BitStands", "BitJudge"), ("drup", "ProofJudges", "ProofJudge"), ("lrat", "LratJudges", "LratJudge")}


def fail(text):
    sys.exit("definitions.py: " + text)


# ---- specs/

class Module:
    """A file of specs/: its definitions' texts, and what its imports bring in."""

    def __init__(self, crate, path):
        self.crate, self.name = crate, path.stem
        self.head, self.comments = comments(path.read_text())
        text = re.sub(r"--[^\n]*", "", path.read_text())
        self.scope, self.exports = {}, {}
        for found in IMPORT.finditer(text):
            names = imported(found)
            self.scope.update(names)
            if found.group(0).startswith("pub"):
                self.exports.update(names)
        heads = list(HEAD.finditer(text))
        self.texts = {}
        for place, head in enumerate(heads):
            end = heads[place + 1].start() if place + 1 < len(heads) else len(text)
            self.texts[head.group(1)] = text[head.start():end]
        for name in self.texts:
            self.scope[name] = (crate, self.name, name)


def comments(text):
    """The comment at the head of a file, and of each of its definitions the comment that speaks of it, or none."""
    head, said, comment, inside = "", {}, "", False
    for line in text.split("\n"):
        if line.startswith("--"):
            begins_part = line.startswith("-- ----")
            comment = "" if begins_part else (comment + " " + line[2:].strip() if inside else line[2:].strip())
            inside = not begins_part
        else:
            inside = False
            found = HEAD.match(line)
            if found:
                said[found.group(1)] = comment
            elif line.startswith(("use ", "pub use ")) and not said:
                head = head or comment
    return head, said


def imported(found):
    """The names that an import brings in, each with the crate, the file and the name there; a file as a whole is brought in
    with the crate and the file, and what is of the toolchain, or of the code, with none."""
    path, names, alias = found.groups()
    parts = path.split(".")
    ours = len(parts) == 4 and parts[0] == "Rattle" and parts[2] == "specs"
    brought = {}
    for item in (names or "").split(","):
        words = item.split()
        if words:
            brought[words[-1]] = (parts[1], parts[3], words[0]) if ours else None
    if names is None:
        brought[alias or parts[-1]] = (parts[1], parts[3]) if ours else None
    return brought


def read_modules():
    modules = {}
    for path in sorted(TOP.glob("crates/*/specs/*.antt")):
        crate = path.parent.parent.name
        modules[crate, path.stem] = Module(crate, path)
    return modules


def home(modules, target):
    """Where a name is defined, through files that only pass it on; none where it is the toolchain's."""
    for _ in range(9):
        crate, name, word = target
        module = modules.get((crate, name))
        if module is None or word in module.texts:
            return target if module else None
        target = module.exports.get(word)
        if target is None:
            return None
    return None


def named_in(modules, text, scope):
    """The definitions that a text names, in order; `do` names what joins its steps."""
    seen = []
    steps = [(STEPS, "")] * bool(re.search(r"\bdo\b", text))
    for word, inside in WORD.findall(text) + steps:
        target = scope.get(word)
        if target and len(target) == 2:
            target = inside and target + (inside,)
        target = target and home(modules, target)
        if target and target not in seen:
            seen.append(target)
    return seen


def is_carried(word, clause):
    """Whether a clause names a word as one that is carried: of a value that is made, with nothing fed to it; as a premise on
    the value before; as what such a premise gives of the value after; or as what a value gives for `stands` of `Taker`."""
    clause = " ".join(clause.split())
    term = r"(?:[\w.]+|\[\]|\((?:[^()]|\([^()]*\))*\))"
    over = r"%s(?: %s)?" % (term, term)
    made = re.compile(r"\(λ (\w+)\. %s %s \1 \[\]\)|\b%s %s result \[\]" % (word, over, word, over))
    premise = re.compile(r"\b%s %s (?:self|judge)(?:\.(?:old|now|entry))? %s →" % (word, over, term))
    kept = re.compile(r"\b%s %s self\.new %s" % (word, over, term))
    given = re.compile(r"λ \w+ \w+ (\w+) (\w+)\. %s %s \1 \2(?=$| \})" % (word, over))
    rest = given.sub("", made.sub("", clause))
    if premise.search(rest):
        rest = kept.sub("", premise.sub("", rest))
    return not re.search(r"\b%s\b" % word, rest)


def closure(modules, roots):
    """All that some definitions rest on, each with the one that names it first."""
    because, todo = {}, []
    for root, call in roots:
        if root not in because:
            because[root] = call
            todo.append(root)
    while todo:
        crate, name, word = target = todo.pop()
        module = modules[crate, name]
        for below in named_in(modules, module.texts[word], module.scope):
            if below not in because:
                because[below] = "%s of %s" % (word, crate)
                todo.append(below)
    return because


# ---- src/

def plain(text):
    """A source without comments, strings and attributes, of the same length."""
    def blank(found):
        return re.sub(r"[^\n]", " ", found.group(0))
    text = re.sub(r'//[^\n]*|b?"(?:\\.|[^"\\])*"|b?\'(?:\\.[^\']*|[^\'\\])\'', blank, text)
    return re.sub(r"#!?\[[^\]]*\]", blank, text)


def closing(text, at):
    """The place behind the brace that closes the one at `at`."""
    depth = 0
    for place in range(at, len(text)):
        if text[place] == "{":
            depth += 1
        elif text[place] == "}":
            depth -= 1
            if depth == 0:
                return place + 1
    fail("a brace is not closed")


class Block:
    """An impl, a trait or a file: its name, its text without what stands deeper, and its scope."""

    def __init__(self, head, text, start, end, scope):
        self.head, self.text, self.start, self.end = head, text, start, end
        self.scope = dict(scope)


BLOCK = re.compile(r"^[ \t]*(?:pub )?(?:unsafe )?(impl|trait|mod)\b([^{;]*)\{", re.M)
FUNCTION = re.compile(r"^[ \t]*((?:pub(?:\([^)]*\))? )?)(?:const )?(?:extern\s+)?fn (\w+)", re.M)
CLAUSE = re.compile(r"\s*(?:requires|ensures)(?:\s+\w+)?\s*\{")
MEMBER = re.compile(r"^[ \t]*ghost (\w+)\s*(:|=)", re.M)


def uses(text, scope):
    """A scope with what the imports of a text bring in."""
    scope = dict(scope)
    for found in GHOST_IMPORT.finditer(text):
        scope.update(imported(found))
    return scope


def functions(text, start, end):
    """Each function between two places: whether it is marked public, its name, its clauses."""
    at = start
    while True:
        found = FUNCTION.search(text, at, end)
        if not found:
            return
        place = found.end()
        # the signature ends at a clause, at the body or at a semicolon that is none of an array's type
        stop = re.compile(r"\b(?:requires|ensures)\b|\{|;(?! \w+\])").search(text, place, end)
        place, clauses = stop.start(), []
        while True:
            clause = CLAUSE.match(text, place, end)
            if not clause:
                break
            brace = clause.end() - 1
            place = closing(text, brace)
            clauses.append(text[brace:place])
        body = re.compile(r"[{;]").search(text, place, end)
        at = closing(text, body.start()) if body.group(0) == "{" else body.end()
        yield found.group(1).strip() == "pub", found.group(2), "\n\n".join(clauses)


def members(text, start, end):
    """Each ghost member between two places: its name and its text."""
    for found in MEMBER.finditer(text, start, end):
        stop = text.find(";", found.end())
        yield found.group(1), text[found.end():stop]


class Crate:
    """What a crate offers: names, and modules whose every public name is offered."""

    def __init__(self, name):
        self.name, self.source = name, TOP / "crates" / name / "src"
        root = self.source / "lib.rt"
        if not root.exists():
            root = self.source / "main.rt"
        text = plain(root.read_text())
        self.open = set(re.findall(r"^pub mod (\w+)", text, re.M))
        self.offered = set()
        for path, many, one in re.findall(r"^pub use ([\w:]+?)::(?:\{([^}]*)\}|(\w+));", text, re.M):
            for item in (many or one).split(","):
                if item.strip():
                    self.offered.add(item.split()[-1])
        self.files = [p for p in sorted(self.source.rglob("*.rt")) if "tests" not in p.relative_to(self.source).as_posix()]
        # what a static library exports, it offers from any module
        for file in self.files:
            self.offered.update(re.findall(r'pub extern "C" fn (\w+)', file.read_text()))

    def offers(self, path, name):
        inside = path.relative_to(self.source).with_suffix("").parts[0]
        return name in self.offered or inside in self.open


def type_of(head):
    """The trait and the type that the head of an impl names."""
    head = head.strip()
    if head.startswith("<"):
        depth = 0
        for place, sign in enumerate(head):
            depth += (sign == "<") - (sign == ">")
            if depth == 0:
                head = head[place + 1:]
                break
    words = [re.sub(r"<.*", "", w.strip(), flags=re.S).split("::")[-1].lstrip("&") for w in re.split(r"\bfor\b", head)]
    return (words[0], words[1]) if len(words) == 2 else (None, words[0])


def public_clauses(crate):
    """Each public call of a crate, with its clauses and the scope in which they stand."""
    for path in crate.files:
        text = plain(path.read_text())
        blocks, at = [], 0
        while True:
            found = BLOCK.search(text, at)
            if not found:
                break
            end = closing(text, found.end() - 1)
            blocks.append((found.group(1), found.group(2), found.start(), found.end(), end))
            at = end
        outside = text
        for kind, head, start, inner, end in blocks:
            outside = outside[:start] + re.sub(r"[^\n]", " ", outside[start:end]) + outside[end:]
        scope = uses(outside, {})
        for public, name, clauses in functions(outside, 0, len(outside)):
            if public and crate.offers(path, name) and not name.startswith("worked_"):
                yield name, clauses, scope
        for kind, head, start, inner, end in blocks:
            here = uses(text[inner:end], scope)
            if kind == "trait":
                name = re.match(r"\s*(\w+)", head).group(1)
                if crate.offers(path, name):
                    for member, said in members(text, inner, end):
                        yield name, said, here
                    for public, function, clauses in functions(text, inner, end):
                        yield "%s::%s" % (name, function), clauses, here
            elif kind == "impl":
                kept, name = type_of(head)
                name = name if name.strip() else "[u8]"
                if kept is None and crate.offers(path, name):
                    for public, function, clauses in functions(text, inner, end):
                        if public:
                            yield "%s::%s" % (name, function), clauses, here
                elif kept == "Model" and crate.offers(path, name):
                    for member, said in members(text, inner, end):
                        if member == "Value":
                            yield name, said, here
                elif kept is not None and kept != "Model" and (crate.offers(path, name) or name == "[u8]"):
                    for member, said in members(text, inner, end):
                        yield name, said, here
                    for public, function, clauses in functions(text, inner, end):
                        yield "%s::%s" % (name, function), clauses, here


# ---- the page

def cell(text):
    """A text as it stands in a table."""
    return text.replace("|", "\\|")


def file_rows(module, words):
    """The rows of a file: what its head says, and what is said of definitions; those of which one comment speaks in one row."""
    by_comment = {module.head: []}
    for word in words:
        said = module.comments[word] or "`%s`" % " ".join(module.texts[word].split())
        by_comment.setdefault(said, []).append("`%s`" % word)
    for said, names in by_comment.items():
        yield ", ".join(["**%s**" % module.name] * (said == module.head) + names), cell(said)


def listed(modules, crates, because):
    """The first list: for each crate what is rested on, by file."""
    lines = []
    for crate in crates:
        files = [(modules[it], [word for word in modules[it].texts if (*it, word) in because]) for it in sorted(modules) if it[0] == crate]
        found = [row for module, words in files if words for row in file_rows(module, words)]
        if found:
            lines += ["### `%s`" % crate, "", "| File, name | Meaning |", "|---|---|", *("| %s | %s |" % row for row in found), ""]
    return "\n".join(lines) + "\n"


def with_list(text, found):
    """The page with this as its first list."""
    begin = text.index("\n### ", text.index("\n" + LIST)) + 1
    return text[:begin] + found + text[text.index(BETWEEN, begin):]


def between_rows(text):
    """The names of the second list, each with its crate."""
    found, begun = [], False
    for line in text.split("\n"):
        if line.startswith("## "):
            begun = line.strip() == BETWEEN
        elif begun and line.startswith("| `"):
            cells = [c.strip() for c in line.strip().strip("|").split("|")]
            found.extend((cells[0].strip("`"), name) for name in re.findall(r"`([^`]+)`", cells[1]))
    return found


def between(modules, because):
    """The definitions on which no public contract rests, by crate and file."""
    left = {}
    for (crate, name), module in sorted(modules.items()):
        words = [w for w in module.texts if (crate, name, w) not in because]
        if words:
            left[crate, name] = words
    return left


def print_calls(crate, calls):
    """Prints a crate's calls with what each names, those that name the same in one line."""
    by_names = {}
    for call, names in calls.items():
        if names:
            by_names.setdefault(tuple(names), []).append(call)
    print(crate)
    for names, called in by_names.items():
        said = [word if home_crate == crate else "%s (%s)" % (word, home_crate) for home_crate, _, word in names]
        print("  %s: %s" % (", ".join(called), ", ".join(said)))


def print_between(modules, left):
    """Prints the definitions on which no public contract rests, by file, with the comment at the file's head; those of which one
    comment speaks in one line."""
    for (crate, name), words in left.items():
        module, by_comment = modules[crate, name], {}
        for word in words:
            by_comment.setdefault(module.comments[word], []).append(word)
        print("%s %s: %s" % (crate, name, module.head))
        for comment, named in by_comment.items():
            print("  %s: %s" % (", ".join(named), comment or "docs/DEFINITIONS.md tells"))


def crossing(modules, left):
    """The definitions on which no public contract rests and that another crate imports, each with those crates; models and
    circuits of worked rows left out."""
    words = {(crate, name, word) for (crate, name), named in left.items() if name != WORKED for word in named}
    found = {}
    for path in sorted(TOP.glob("crates/*/*/**/*.antt")) + sorted(TOP.glob("crates/*/src/**/*.rt")):
        crate, text = path.relative_to(TOP / "crates").parts[0], path.read_text()
        for line in list(IMPORT.finditer(text)) + list(GHOST_IMPORT.finditer(text)):
            for target in imported(line).values():
                if target in words and target[0] != crate:
                    found.setdefault(target, set()).add(crate)
    return found


def lines_of(text):
    """How many lines a definition has, without comments and empty ones."""
    return sum(bool(line.strip()) for line in text.split("\n"))


def way(modules, names):
    """Prints all that some definitions rest on, by file; 2 where a name is of none, or of several."""
    roots = []
    for asked in names:
        crate, _, word = asked.partition(".")
        found = [(crate, name, word) for (home_crate, name), module in modules.items() if home_crate == crate and word in module.texts]
        if len(found) != 1:
            print("definitions.py: %s is the name of %d definitions" % (asked, len(found)))
            return 2
        roots.append((found[0], asked))
    files = {}
    for crate, name, word in closure(modules, roots):
        files.setdefault((crate, name), []).append(word)
    total = 0
    for (crate, name), words in sorted(files.items()):
        lines = sum(lines_of(modules[crate, name].texts[word]) for word in words)
        total += lines
        print("%4d in %4d lines  crates/%s/specs/%s.antt: %s" % (len(words), lines, crate, name, ", ".join(sorted(words))))
    print("%4d in %4d lines of %d files" % (sum(map(len, files.values())), total, len(files)))
    return 0


def wrong_names(modules):
    """The names that several definitions of a crate have."""
    files = {}
    for (crate, name), module in sorted(modules.items()):
        for word in module.texts:
            files.setdefault((crate, word), []).append(name)
    for (crate, word), names in sorted(files.items()):
        if len(names) > 1:
            yield "%s of %s is the name of several definitions, in specs/ of %s" % (word, crate, ", ".join(names))


def wrong_between(left, modules, listed):
    """What is wrong with the comments on the other definitions, and with the second list."""
    bare = {}
    for (crate, name), words in left.items():
        for word in words:
            if name != WORKED and not modules[crate, name].comments[word]:
                bare[crate, word] = name
    for crate, word in sorted(set(bare) - set(listed)):
        yield "no comment, and no row in the second list: %s of %s, in specs/%s.antt" % (word, crate, bare[crate, word])
    for crate, word in sorted(set(listed) - set(bare)):
        yield "a row of the second list names %s of %s, where no such definition stands without a comment" % (word, crate)


def main():
    asked = sys.argv[1:]
    if asked[:1] == ["--way"] and len(asked) > 1:
        return way(read_modules(), asked[1:])
    if any(a not in ("--write", "--calls", "--list", "--between", "--crossing") for a in asked) or len(asked) > 1:
        print(__doc__.strip())
        return 0 if asked[:1] in (["--help"], ["-h"]) else 2
    modules = read_modules()
    crates = [line.split(":")[0].split()[0] for line in (TOP / "crates.txt").read_text().split("\n")
              if line.strip() and not line.startswith("#")]
    # crates of tests offer nothing but what tests speak of
    crates = [name for name in crates if not name.endswith("_tests")]
    roots, wrong = [], []
    for name in crates:
        calls = {}
        for call, clauses, scope in public_clauses(Crate(name)):
            direct = named_in(modules, clauses, scope)
            direct = [word for word in direct if word not in CARRIED_VALUES or word[2] != call]
            for carried in CARRIED.intersection(direct):
                direct.remove(carried)
                if not all(is_carried(carried[2], clause) for clause in clauses.split("\n\n")):
                    wrong.append("%s of %s names %s in another way than as a word that is carried" % (call, name, carried[2]))
            known = calls.setdefault(call, [])
            known.extend(d for d in direct if d not in known)
            roots.extend((d, "%s of %s" % (call, name)) for d in direct)
        if asked == ["--calls"]:
            print_calls(name, calls)
    if asked == ["--calls"]:
        return 0
    because = closure(modules, roots)
    if asked == ["--list"]:
        for crate, name, word in sorted(because):
            print("%s %s.%s: named by %s" % (crate, name, word, because[crate, name, word]))
        return 0
    if asked == ["--between"]:
        print_between(modules, between(modules, because))
        return 0
    if asked == ["--crossing"]:
        for (crate, name, word), others in sorted(crossing(modules, between(modules, because)).items()):
            print("%s %s.%s: %s" % (crate, name, word, ", ".join(sorted(others))))
        return 0
    text = PAGE.read_text()
    whole = with_list(text, listed(modules, crates, because))
    if asked == ["--write"]:
        PAGE.write_text(whole)
        return 0
    if whole != text:
        wrong.append("the first list of docs/DEFINITIONS.md is not as specs/ have it: `python3 tools/definitions.py --write` writes it")
    wrong.extend(wrong_names(modules))
    wrong.extend(wrong_between(between(modules, because), modules, between_rows(text)))
    for line in wrong:
        print(line)
    return 1 if wrong else 0


if __name__ == "__main__":
    signal.signal(signal.SIGPIPE, signal.SIG_DFL)
    sys.exit(main())
