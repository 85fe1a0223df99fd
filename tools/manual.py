#!/usr/bin/env python3
"""Makes manual pages and completions of shells, from what a program says of its commands, and a script of its words.

    tools/manual.py PROGRAM FOLDER       of hwtool: hwtool.1, hwtool.bash, _hwtool (of zsh) and hwtool.fish
    tools/manual.py --scripts FOLDER     the same of each of hwtool-flow and hwtool-judge

The one source is the table of commands in the crate `command_line`, as `--help` shows it; and of a script what reads its words.
"""
import argparse
import importlib.machinery
import importlib.util
import pathlib
import re
import subprocess
import sys
import textwrap
import typing

TOP = pathlib.Path(__file__).resolve().parent.parent
# The scripts, each with the file that has its function `parser`.
SCRIPTS = {"hwtool-flow": "tools/flow/command_line.py", "hwtool-judge": "tools/hwtool-judge"}
# How roff is told marks that it would take for others.
MARKS = {"\\": r"\e", "-": r"\-", "`": r"\(ga", "^": r"\(ha", "~": r"\(ti"}
# The values that are files.
FILE_VALUES = ("FILE", "FOLDER", "LIST", "PROGRAM", "SCRIPT")


class Option(typing.NamedTuple):
    """An option: its letter, its word (one of them may be empty), the name of its value (empty where it has none), what it does, and
    whether it may be said again."""

    letter: str
    word: str
    value: str
    help: str
    is_repeated: bool = False

    @property
    def names(self) -> list[str]:
        """It as it is given."""
        return [f"-{self.letter}"] * bool(self.letter) + [f"--{self.word}"] * bool(self.word)


class Command(typing.NamedTuple):
    """A command: its word, what it does, its line of usage, its arguments with what they are, and its options."""

    word: str
    about: str
    usage: str
    arguments: list[tuple[str, str]]
    options: list[Option]


class Tool(typing.NamedTuple):
    """What a page is about: its name, what it is in a line, its version, its text, its commands, notes, and exit statuses.

    The one command of a script has no word.
    """

    name: str
    title: str
    version: str
    about: str
    commands: list[Command]
    notes: list[str]
    statuses: list[tuple[str, str]]


def said(program, *words):
    """What a program says."""
    return subprocess.run([program, *words], check=True, capture_output=True, text=True).stdout


def date_of(*places):
    """The day on which some files were last changed, as git knows; empty where it does not."""
    words = ["git", "-C", str(TOP), "log", "-1", "--format=%cs", "--", *places]
    return subprocess.run(words, stdout=subprocess.PIPE, stderr=subprocess.DEVNULL, text=True).stdout.strip()


# ---- what a program says of its commands


def sections(text):
    """The parts of a help by their heads; what stands before the first is under an empty one, and `Usage` is a line."""
    found, head = {"": []}, ""
    for line in text.splitlines():
        if line.startswith("Usage: "):
            found["Usage"] = [line.removeprefix("Usage: ")]
        elif re.fullmatch(r"[A-Z][a-z ]+:", line):
            head = line[:-1]
            found[head] = []
        elif line.startswith("The file - ") and head:
            head = "end"
            found[head] = [line]
        else:
            found[head].append(line)
    return found


def rows(lines):
    """The rows of a part, each a word and its text."""
    return [tuple(re.split(r"  +", it.strip(), maxsplit=1)) for it in lines if it.strip()]


def option(row):
    """The option of a row."""
    names, text = row
    found = re.fullmatch(r"(?:-(\w), )?(?:--([\w-]+))(?: <(\w+)>)?", names)
    return Option(found[1] or "", found[2], found[3] or "", text)


def commands(program):
    """The commands that the program has."""
    for word, about in rows(sections(said(program, "--help"))["Commands"]):
        if word == "help":
            continue
        parts = sections(said(program, word, "--help"))
        arguments = [(re.sub(r"[<>\[\]]|[.]{3}", "", name), text) for name, text in rows(parts.get("Arguments", []))]
        yield Command(word, about, parts["Usage"][0], arguments, [option(row) for row in rows(parts["Options"])])


def program_tool(program):
    """The program, as it says."""
    parts = sections(said(program, "--help"))
    notes = [it.replace("\n", " ") for it in "\n".join(parts["end"]).strip().split("\n\n")]
    found = re.findall(r"^  (\d)  (.*(?:\n     .*)*)", "\n".join(parts["Exit statuses"]), flags=re.M)
    title = "BTOR2 models to AIGER circuits, and judgements of their witnesses and certificates"
    about = " ".join(filter(None, parts[""]))
    return Tool("hwtool", title, said(program, "--version").strip(), about, list(commands(program)), notes, found)


# ---- what reads the words of a script


def parser_of(name):
    """What reads the words of a script."""
    file = TOP / SCRIPTS[name]
    sys.dont_write_bytecode = True
    sys.path.insert(0, str(TOP / "tools"))
    module_name = ".".join(file.relative_to(TOP / "tools").with_suffix("").parts).replace("-", "_")
    loader = importlib.machinery.SourceFileLoader(module_name, str(file))
    module = importlib.util.module_from_spec(importlib.util.spec_from_loader(loader.name, loader))
    loader.exec_module(module)
    return module.parser()


def script_tool(name):
    """A script, as what reads its words says."""
    reader = parser_of(name)
    arguments, options, usage = [], [], [name, "[OPTIONS]"]
    for it in reader._actions:
        text = ((it.help or "") % {**vars(it), "prog": name}).replace("\n", " ")
        value = "" if it.nargs == 0 else it.metavar or it.dest.upper()
        if it.option_strings:
            words = it.option_strings
            letter, word = (next((given.strip("-") for given in words if re.match(front, given)), "") for front in ("-[^-]", "--"))
            options.append(Option(letter, word, value, text, isinstance(it, argparse._AppendAction)))
        else:
            arguments.append((value, text))
            usage.append({"+": f"{value} ...", "*": f"[{value} ...]"}.get(it.nargs, value))
    about = reader.description.replace("\n", " ")
    title = re.split(r"[:.]", about)[0]
    statuses = re.findall(r"(\d+) (.*?)(?:; (?=\d)|$)", (reader.epilog or "").replace("\n", " ").partition("exit statuses: ")[2])
    command = Command("", about, " ".join(usage), arguments, options)
    return Tool(name, title[0].lower() + title[1:], "hwtool", about, [command], [], statuses)


# ---- the manual page


def roff(text):
    """A text for roff: marks stand for themselves, no line is long, and none begins with a mark."""
    for mark, name in MARKS.items():
        text = text.replace(mark, name)
    lines = textwrap.wrap(text, 78, break_long_words=False, break_on_hyphens=False)
    return "\n".join(re.sub(r"^([.'])", r"\\&\1", it) for it in lines)


def sentence(text):
    """A text for roff as a sentence."""
    return roff(text[:1].upper() + text[1:].rstrip(".") + ".")


def option_names(it):
    """An option for roff, as it is given."""
    return ", ".join(rf"\fB{roff(name)}\fR" for name in it.names) + (rf" \fI{it.value}\fR" if it.value else "")


def page(tool, date):
    """The manual page of a tool that was changed on a day."""
    # lines are neither spread nor hyphenated, which a narrow terminal could not
    lines = [f'.TH {roff(tool.name.upper())} 1 "{date}" "{tool.version}" "User Commands"', ".nh", ".ad l"]
    lines += [".SH NAME", roff(f"{tool.name} - {tool.title}"), ".SH SYNOPSIS"]
    for it in tool.commands:
        name = f"{tool.name} {it.word}".strip()
        lines += [rf"\fB{roff(name)}\fR {roff(it.usage.removeprefix(name).strip())}", ".br"]
    lines[-1:] = [".SH DESCRIPTION", roff(tool.about), f".SH {'COMMANDS' if len(tool.commands) > 1 else 'OPTIONS'}"]
    for it in tool.commands:
        if it.word:
            lines += [f".SS {roff(it.word)}", sentence(it.about)]
        for name, text in it.arguments:
            lines += [".TP", rf"\fI{name}\fR", sentence(text)]
        for each in it.options:
            if each.word != "help":
                lines += [".TP", option_names(each), sentence(each.help)]
    lines += [".SH NOTES"] * bool(tool.notes) + [line for note in tool.notes for line in (roff(note), ".PP")][:-1]
    lines += [".SH EXIT STATUS"]
    for number, text in tool.statuses:
        lines += [".TP", number, sentence(re.sub(r"\s+", " ", text))]
    return "\n".join([*lines, ""])


# ---- completions


def in_bash(tool):
    """The completions of a tool for bash."""
    valued = [each for it in tool.commands for each in it.options if each.value and each.value not in FILE_VALUES]
    values = "|".join(sorted({name for it in valued for name in it.names}))
    function = "_" + tool.name.replace("-", "_")
    options = {it.word: " ".join(f"--{each.word}" for each in it.options if each.word) for it in tool.commands}
    if "" in options:
        words = f"    words='{options['']}'\n"
    else:
        cases = "".join(f"        {word}) words='{its}' ;;\n" for word, its in options.items())
        words = f"    case ${{COMP_WORDS[1]}} in\n{cases}    esac\n"
    first = "" if "" in options else f"""\
    if [ "$COMP_CWORD" = 1 ]; then
        mapfile -t COMPREPLY < <(compgen -W '{' '.join(options)} help --help --version' -- "$word")
        return
    fi
"""
    return f"""# Completions of {tool.name} for bash, made from what it says of its words.
{function}() {{
    local word=${{COMP_WORDS[COMP_CWORD]}} before=${{COMP_WORDS[COMP_CWORD - 1]}} words=
    COMPREPLY=()
{first}    case $before in
        {values}) return ;;
    esac
{words}    if [[ $word == -* ]]; then
        mapfile -t COMPREPLY < <(compgen -W "$words" -- "$word")
    else
        mapfile -t COMPREPLY < <(compgen -f -- "$word")
    fi
}}
complete -o filenames -F {function} {tool.name}
"""


def quoted(text):
    """A text in single quotes."""
    return "'" + text.replace("'", "'\\''") + "'"


def in_zsh(tool):
    """The completions of a tool for zsh."""

    def spec(each):
        """An option as zsh takes it."""
        value = f":{each.value}:{'_files' if each.value in FILE_VALUES else ''}" if each.value else ""
        text = re.sub(r"([\[\]:])", r"\\\1", each.help)
        again = "*" if each.is_repeated else f"({' '.join(each.names)})" if len(each.names) > 1 else ""
        names = f"{{{','.join(each.names)}}}" if len(each.names) > 1 else each.names[0]
        return quoted(again) * bool(again) + names + quoted(f"[{text}]{value}")

    lines = [f"#compdef {tool.name}", f"# Completions of {tool.name} for zsh, made from what it says of its words."]
    rules = {it.word: f"_arguments {' '.join(map(spec, it.options))} '*:file:_files'" for it in tool.commands}
    if "" in rules:
        return "\n".join([*lines, rules[""], ""])
    lines += ["local -a commands", "commands=("]
    lines += ["    " + quoted(f"{it.word}:{it.about}") for it in tool.commands]
    lines += [")", "if (( CURRENT == 2 )); then", "    _describe command commands", "    return", "fi", "local word=$words[2]"]
    lines += ["shift words", "(( CURRENT-- ))", "case $word in", *(f"{word}) {rule} ;;" for word, rule in rules.items())]
    return "\n".join([*lines, "esac", ""])


def in_fish(tool):
    """The completions of a tool for fish."""
    lines = [f"# Completions of {tool.name} for fish, made from what it says of its words."]
    for it in tool.commands:
        seen = f" -n '__fish_seen_subcommand_from {it.word}'" if it.word else ""
        if it.word:
            lines.append(f"complete -c {tool.name} -n __fish_use_subcommand -f -a {it.word} -d {quoted(it.about)}")
        for each in it.options:
            names = f" -l {each.word}" * bool(each.word) + f" -s {each.letter}" * bool(each.letter)
            value = (" -r -F" if each.value in FILE_VALUES else " -x") if each.value else ""
            lines.append(f"complete -c {tool.name}{seen}{names}{value} -d {quoted(each.help)}")
    return "\n".join([*lines, ""])


def write_of(tool, date, folder):
    """Writes the page and the completions of a tool into a folder."""
    (folder / f"{tool.name}.1").write_text(page(tool, date))
    (folder / f"{tool.name}.bash").write_text(in_bash(tool))
    (folder / f"_{tool.name}").write_text(in_zsh(tool))
    (folder / f"{tool.name}.fish").write_text(in_fish(tool))


def write(program, folder):
    """Writes those of the program into a folder."""
    write_of(program_tool(program), date_of("crates", "crates.txt"), pathlib.Path(folder))


def write_scripts(folder):
    """Writes those of the scripts into a folder."""
    for name in SCRIPTS:
        write_of(script_tool(name), date_of("tools"), pathlib.Path(folder))


if __name__ == "__main__":
    if len(sys.argv) != 3:
        sys.exit(__doc__)
    if sys.argv[1] == "--scripts":
        write_scripts(sys.argv[2])
    else:
        write(*sys.argv[1:])
