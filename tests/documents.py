#!/usr/bin/env python3
"""Reads README.md, docs/ and python/README.md, and tells what they name that is not there, links that lead nowhere, and sentences that are too long.

What is looked for in the sources: files and folders, also by the end of their paths; crates, and what is said to be of a crate or of
a type; names of several words; the commands of hwtool with their options, the options of hwtool-flow and of scripts; the targets of
the Makefile. What it cannot tell it passes over: words of other tools, files of users, what stands in out/. It also says, which is no
fault, where two documents have one figure of one thing. The status is 0 where nothing is wrong, else 1.
"""
import collections
import fnmatch
import functools
import pathlib
import re
import subprocess
import sys

TOP = pathlib.Path(__file__).resolve().parent.parent
PAGES = [TOP / "README.md", *sorted((TOP / "docs").glob("*.md")), TOP / "python/README.md"]
# The most words of a sentence.
MOST = 30
# The theorem, which is one sentence.
THEOREM = "**For every model of the profile, the lowered circuit has"
# Endings of files that stand in the sources where a document names one.
ENDINGS = (".rt", ".antt", ".py", ".edit", ".ys")
# Names that are the toolchain's.
OF_OTHERS = {"TheLink"}
# What stands behind a figure and is no count of what is here.
UNITS = set("bits bytes bit byte megabytes kilobytes gigabytes mb kb gb ms milliseconds seconds minutes words is was has of".split())


def read(path):
    return path.read_text(encoding="utf-8")


# ---- the sources

FILES = subprocess.run(["git", "ls-files", "-co", "--exclude-standard"], cwd=TOP, capture_output=True, text=True, check=True).stdout.split("\n")
FILES = [it for it in FILES if it and (TOP / it).is_file()]
PLACES = sorted({*FILES, *(str(up) for it in FILES for up in pathlib.PurePath(it).parents)})
CRATES = [it.split(":")[0].split()[0] for it in read(TOP / "crates.txt").splitlines() if it[:1].isalpha()]
FRONTS = {it.split("/")[0] for it in FILES if "/" in it} | {*CRATES, "src", "specs", "proofs"}
TARGETS = {word for it in read(TOP / "Makefile").splitlines() if re.match(r"[a-z][\w -]*:(?!=)", it) for word in it.split(":")[0].split()}


def stands(place):
    """Whether a file or folder has a path that ends so, where words in capitals and `*` stand for any name."""
    place = place.removeprefix("./").rstrip("/")
    if any(it == place or it.endswith("/" + place) for it in PLACES):
        return True
    pattern = re.sub(r"(?<![a-z])[A-Z]{2,}(?![a-z])", "*", place)
    return pattern != place and pattern.strip("*/") != "" and any(fnmatch.fnmatch(it, pattern) for it in PLACES) or "*" in place and any(
        fnmatch.fnmatch(it, "*/" + place) or fnmatch.fnmatch(it, place) for it in PLACES
    )


@functools.lru_cache(None)
def words_of(crate):
    """All words in the sources of a crate but for its comments, its files and wrong bodies among them."""
    texts = [re.sub(r"(?://|-- ).*", "", read(TOP / it)) for it in FILES if it.startswith(f"crates/{crate}/") and it.endswith((".rt", ".antt"))]
    stems = [pathlib.Path(it).stem for it in FILES if f"/{crate}/" in it]
    return set(re.findall(r"[\w-]+", " ".join([*stems, *texts])))


@functools.lru_cache(None)
def declared(crate):
    """What the code of a crate declares or imports: functions, types, their cases, constants, modules, fields."""
    found = set()
    for it in FILES:
        if it.startswith(f"crates/{crate}/src/") and it.endswith(".rt"):
            text = re.sub(r"//.*", "", read(TOP / it))
            found.update(re.findall(r"\b(?:fn|struct|enum|trait|type|const|mod|static) (\w+)|^\s+(?:pub )?(\w+)(?:[:,({]| =)", text, re.M))
            found.update((word, "") for line in re.findall(r"\buse ([^;]*);", text) for word in re.findall(r"\w+", line))
    return {it for pair in found for it in pair}


@functools.lru_cache(None)
def all_words():
    """All that is written in the repository but for the documents, with its paths, and the words of that."""
    found = [it for it in FILES if TOP / it not in PAGES and pathlib.Path(it).suffix not in (".a", ".so", ".png")]
    text = " ".join([*FILES, *((TOP / it).read_text(encoding="utf-8", errors="replace") for it in found)])
    return text, set(re.findall(r"\w+", text))


def is_written(name):
    """Whether a name, or a longer one that it is a part of, stands in the sources."""
    text, words = all_words()
    return name in words or name in text


@functools.lru_cache(None)
def types():
    """The types and traits of the sources, each with the words of its crates' code."""
    found = collections.defaultdict(set)
    for it in FILES:
        if it.startswith("crates/") and it.endswith(".rt"):
            for name in re.findall(r"^(?:pub(?:\(\w+\))? )?(?:struct|enum|trait|type) (\w+)", read(TOP / it), re.M):
                found[name] |= declared(it.split("/")[1])
    return found


@functools.lru_cache(None)
def commands():
    """The commands of hwtool, each with its options."""
    text = read(TOP / "crates/wordings/specs/Table.antt")
    words = dict(re.findall(r'^word_of verb\.(\w+) = codes "([\w-]+)"', text, re.M))
    every = {"--help", "-h"}
    found = {}
    for verb, said in re.findall(r"^words_of verb\.(\w+) =(.*?)∷ \[\]", text, re.S | re.M):
        options = [name for name, kind in re.findall(r'codes "([\w-]+)", kind\.(\w+)', said) if kind != "File"]
        found[words[verb]] = every | {f"--{it}" for it in options} | ({"-o"} if "output" in options else set())
    return {"help": every, "explain": every, **found}


# ---- what the documents name


def wrong_words(command, text):
    """What of the words behind `hwtool` is no command or no option."""
    given = re.findall(r"(?<![\w-])--?[a-z][\w-]*", text)
    if command not in commands():
        return [f"no command `hwtool {command}`"]
    return [f"no option {it} of `hwtool {command}`" for it in given if it not in commands()[command]]


def wrong_calls(code):
    """What is wrong with the commands in some code."""
    for found in re.finditer(r"(?:^|[|;&(`$]) *(?:\./|release/)?hwtool +([a-z][a-z-]*)([^|;&>#\n]*)", code, re.M):
        yield from wrong_words(found[1], found[2])
    for tool, file in (("hwtool-flow", "tools/flow/command_line.py"), ("hwtool-judge", "tools/hwtool-judge")):
        for words in re.findall(rf"(?<![\w/.-])(?:tools/)?{tool}\b([^|;&>#\n]*)", re.sub("'[^']*'", "", code)):
            known = read(TOP / file) + '"--help"'
            yield from (f"no option {it} of {tool}" for it in re.findall(r"(?<!\S)--[a-z][\w-]*", words) if f'"{it}"' not in known)
    for script, words in re.findall(r"(?<![\w/])((?:tests|tools|bench)/[\w.-]+\.(?:py|sh))\b([^|;&>#\n]*)", code):
        if (TOP / script).is_file():
            yield from (f"no option {it} of {script}" for it in re.findall(r"(?<!\S)--[a-z][\w-]*", words) if it not in read(TOP / script))
    for target in re.findall(r"(?:^|\$ )make ([a-z][\w-]*)", code, re.M):
        if target not in TARGETS:
            yield f"no target `make {target}`"


def wrong_places(code):
    """The files and folders that some code names and that are not there."""
    for word in re.findall(r"(?<![\w/.:$~<>{-])[\w.*-]+(?:/[\w.*-]+)*/?", code):
        word = word.rstrip(".")
        front, slash, _ = word.removeprefix("./").partition("/")
        is_named = front in FRONTS if slash else word.endswith(ENDINGS) and not word.startswith(("*", "."))
        if is_named and "out" not in word.split("/") and not stands(word):
            yield f"no file `{word}`"


def wrong_names(code):
    """What is wrong with a code span that is a name of several words, or a path of names, as `crate::function` or `Type::function`."""
    if re.fullmatch(r"[a-z0-9]+(_[a-z0-9]+)+|([A-Z][a-z0-9]+){2,}", code) and not (is_written(code) or code in OF_OTHERS):
        yield f"no name `{code}`"
    if not re.fullmatch(r"\w+(?:::\w+)+", code):
        return
    front, *names = code.split("::")
    known = declared(front) if front in CRATES else types().get(front)
    if known is not None:
        yield from (f"no `{it}` of `{front}`" for it in names if it not in known)


def faults(text):
    """What a line, or a block of code, names that is not there."""
    spans = re.findall(r"`([^`]+)`", text)
    for code in spans:
        yield from wrong_calls(code)
        yield from wrong_places(code)
        yield from wrong_names(code)
        word, _, rest = code.partition(" ")
        if word in commands() and re.match(r"\[?--", rest):
            yield from wrong_words(word, rest)
    for name, crate in re.findall(r"`([A-Za-z_][\w.]*)` of `(\w+)`", text):
        parts = re.findall(r"\w+", name.removesuffix(".rt").removesuffix(".antt"))
        if crate in CRATES and not words_of(crate).issuperset(parts):
            yield f"no `{name}` of the crate `{crate}`"
    for crate in re.findall(r"(?<!\w)crate `(\w+)`", text):
        if crate not in CRATES:
            yield f"no crate `{crate}`"


# ---- pages


@functools.lru_cache(None)
def anchors(path):
    """What links may name of a page: its headings."""
    found = []
    for it in re.findall(r"^#+ (.*)", re.sub(r"^```.*?^```", "", read(path), flags=re.M | re.S), re.M):
        found.append(re.sub(r"[^\w\- ]", "", it.strip().lower()).replace(" ", "-"))
    return {it if found[:at].count(it) == 0 else f"{it}-{found[:at].count(it)}" for at, it in enumerate(found)}


def wrong_links(path, text):
    for target in re.findall(r"\]\(([^)\s]+)\)", re.sub(r"`[^`]*`", "", text)):
        place, _, anchor = target.partition("#")
        if re.match(r"[a-z]+:", target):
            continue
        file = path.parent / place if place else path
        if not file.exists():
            yield f"a link to {target}, which is not there"
        elif anchor and file.suffix == ".md" and anchor not in anchors(file.resolve()):
            yield f"a link to {target}, a heading that is not there"


def parts(text):
    """The paragraphs, items and cells of a page, each with the number of its line; and the blocks of code, which are told apart."""
    behind, block = None, None
    for number, line in enumerate(text.split("\n"), 1):
        if line.lstrip().startswith("```"):
            if behind:
                yield (*behind, False)
            if block:
                yield (*block, True)
            behind, block = None, (None if block else (number, ""))
        elif block:
            block = block[0], f"{block[1]}{line}\n"
        elif re.match(r"\s*\|", line):
            for cell in re.split(r"(?<!\\)\|", line.strip().strip("|")):
                yield number, cell.strip(), False
        elif not line.strip() or re.match(r"#|\s*(?:[-*]|\d+\.) ", line):
            if behind:
                yield (*behind, False)
            behind = (number, re.sub(r"^\s*(?:[-*]|\d+\.) ", "", line)) if line.strip() and line[0] != "#" else None
        else:
            behind = (behind[0], f"{behind[1]} {line.strip()}") if behind else (number, line.strip())
    if behind:
        yield (*behind, False)


def sentences(text):
    """The sentences of a paragraph, of which a piece of code is one word."""
    text = re.sub(r"`[^`]+`", lambda found: found[0].replace(" ", "_"), re.sub(r"!?\[([^\]]*)\]\([^)]*\)", r"\1", text))
    return re.split(r"(?<=[.!?])(?<!\.\.)[\"')*]*\s+(?=[\"'(*]*[A-Z0-9`])", text)


def figures(text):
    """The figures of a paragraph, each with what it counts."""
    for figure, first, second in re.findall(r"(?<![\w.,^-])(\d{1,3}(?:,\d{3})+|\d{2,})(?![\d.,]*\d) ([a-z]+)(?: ([a-z]+))?", text):
        noun = first if first.endswith("s") or not second else f"{first} {second}"
        if not {first, second} & UNITS and noun.endswith(("s", "bodies")):
            yield f"{figure} {noun}"


def written(path):
    """A page without the list that tools/definitions.py writes of what stands at definitions, with as many lines."""
    text = read(path)
    if path.name != "DEFINITIONS.md":
        return text
    found = re.search(r"(?s)\n### .*?(?=\n## Words between)", text)
    return text[:found.start()] + "\n" * found[0].count("\n") + text[found.end():]


def main():
    names = links = many = 0
    wrong = []
    counted = collections.defaultdict(dict)
    for path in PAGES:
        name, text = path.relative_to(TOP), written(path)
        for number, part, is_code in parts(text):
            found = [*wrong_calls(part), *wrong_places(part)] if is_code else [*faults(part), *wrong_links(path, part)]
            names += len(re.findall(r"`[^`]+`", part)) if not is_code else part.count("\n")
            links += 0 if is_code else part.count("](")
            # rows that `explain` prints are the program's own words
            is_printed = path.name == "REFUSALS.md" and re.match(r"\| \d", text.split("\n")[number - 1])
            for it in [] if is_code or is_printed else sentences(part):
                # a list of names is no sentence
                count = 0 if re.fullmatch(r"(?:`[^`]+`(?:, )?)+", it) else len(re.findall(r"\S*\w\S*", it))
                many += 1
                if count > MOST and not it.startswith(THEOREM):
                    found.append(f"a sentence of {count} words: {' '.join(it.split()[:9])} ..")
            for it in [] if is_code else figures(re.sub(r"`[^`]+`", "", part)):
                counted[it].setdefault(str(name), f"{name}:{number}")
            wrong += [f"{name}:{number}: {it}" for it in dict.fromkeys(found)]
    for it, places in sorted(counted.items()):
        if len(places) > 1:
            print(f"told twice: {it}: {', '.join(places.values())}")
    print("".join(f"{it}\n" for it in wrong), end="")
    print(f"documents: {len(PAGES)} pages, {names} names and lines of code, {links} links and {many} sentences tried, {len(wrong)} wrong")
    return 1 if wrong else 0


if __name__ == "__main__":
    sys.exit(main())
