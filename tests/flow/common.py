"""What all tries of hwtool-flow share: a count, a folder to try in, engines that lie, and what is looked at behind a run."""
import json
import os
import pathlib
import shlex
import shutil
import subprocess
import sys
import time


TOP = pathlib.Path(__file__).resolve().parent.parent.parent
TOOL = TOP / "tools/hwtool-flow"
LIAR = TOP / "tests/lying_engine.py"
HOSTILE = TOP / "tests/hostile_engine.py"
MAKER = TOP / "tools/witness-circuit.py"
EXAMPLES = TOP / "examples"
HOLDS = "holds"
ALL_HOLD, ONE_FAILS, REFUSED, BROKE, WORDS, OPEN = range(6)


class Tally:
    """How much was tried, and what was not as it should be."""

    def __init__(self):
        self.tried = self.wrong = 0

    def same(self, what, wanted, got):
        """Two values are one."""
        self.tried += 1
        if wanted != got:
            self.wrong += 1
            print(f"{what}: wanted {wanted!r}, got {got!r}", flush=True)

    def untouched(self, what, before, now):
        """What was there before is there now, and nothing else."""
        names = sorted(it for it in {*before, *now} if before.get(it) != now.get(it))
        self.same(what, [], [(it, before.get(it), now.get(it)) for it in names])

    def true(self, what, is_so, why=""):
        """Something is so."""
        self.tried += 1
        if not is_so:
            self.wrong += 1
            print(f"{what}: {why or 'it is not so'}", flush=True)


tally = Tally()


class Place:
    """A folder for tries, with the program on a path of its own."""

    def __init__(self, folder, program):
        self.folder, self.program = pathlib.Path(folder), program

    def sub(self, name):
        """A folder in it."""
        made = Place(self.folder / name, self.program)
        made.folder.mkdir()
        return made

    def words(self, *words):
        """The words of a run."""
        return [sys.executable, str(TOOL), "--hwtool", self.program, *map(str, words)]

    def run(self, *words, **more):
        """A run; its status and both outputs."""
        return subprocess.run(self.words(*words), cwd=self.folder, capture_output=True, text=True, timeout=600, check=False, **more)

    def results(self, name):
        """What a run kept."""
        return json.loads((self.folder / name / "results.json").read_text())

    def verdicts(self, name):
        """What is kept of each property, as DESIGNS has it; None where it is open."""
        known = {"fails": lambda it: it["frame"], "holds": lambda it: HOLDS, "open": lambda it: None}
        return [known.get(it["verdict"], lambda it: it["verdict"])(it) for it in self.results(name)["properties"]]

    def judged(self, name):
        """How many judgements are kept: of properties, of whether they are asked, and of the assumptions."""
        results = self.results(name)
        return sum(it["judged"] != "open" for it in [*results["properties"], *results["beside"]] if it["key"])

    def verdict(self, name, number):
        """What is kept of one property; that there is nothing is none of these."""
        return self.verdicts(name)[number] if (self.folder / name / "results.json").exists() else "no results"

    def checked(self, name):
        """The status of check.sh, run where there is no engine, and its last line."""
        tools = self.folder / "tools"
        if not tools.exists():
            tools.mkdir()
            for it in ("sh", "grep", "dirname", "sha256sum"):
                (tools / it).symlink_to(shutil.which(it))
            (tools / "hwtool").symlink_to(self.program)
        done = subprocess.run(
            [tools / "sh", f"{name}/check.sh"], cwd=self.folder, env={"PATH": str(tools)}, capture_output=True, text=True, check=False
        )
        return done.returncode, (done.stdout.splitlines() or [done.stderr])[-1]


def lasting(results):
    """What of results does not differ from run to run."""
    front = {key: results[key] for key in ("design", "model", "sum", "reading", "steps")}
    return front, [
        {key: it[key] for key in ("number", "name", "place", "verdict", "frame", "check", "command", "said")}
        for it in results["properties"]
    ]


# What all processes of these tries have in their environment, but for those that were started without it.
MARK = "HWTOOL_FLOW_TRIES"


def left_over(place, words=""):
    """The processes that engines of runs in a place have left, with some words among theirs; without words also what stands around one."""
    mark, found = os.fsencode(f"{MARK}={os.environ[MARK]}"), []
    for it in filter(str.isdigit, os.listdir("/proc")):
        try:
            seen, environment = (pathlib.Path(f"/proc/{it}/{what}").read_bytes().split(b"\0") for what in ("cmdline", "environ"))
        except OSError:
            continue
        is_own = os.fsencode(TOOL) in seen or words and b"-I" in seen
        if mark in environment and not is_own and words.encode() in b"\0".join(seen):
            found.append(int(it))
    return found


def maker(way, before=""):
    """The command of an engine that writes a witness circuit, made in a way by the script, behind the words of a shell."""
    script = f"{before}{sys.executable} {MAKER} {way} -o {{witness_circuit}} {{form}}"
    return shlex.join(["sh", "-c", script]) if before else script


def liar(way, *files, handed="{form}"):
    """The command of an engine that lies in a way; what it is handed stands at its end, where it does not look."""
    return shlex.join([sys.executable, str(LIAR), way, *map(str, files)]).replace("'{", "{").replace("}'", "}") + f" -- {handed}"


def counter_model(bads, modulo):
    """A model of a counter of six bits that goes round below a number: bad property k says that it is k modulo 60."""
    lines = [
        "1 sort bitvec 1",
        "2 sort bitvec 6",
        "3 zero 2",
        "4 state 2 count",
        "5 init 2 4 3",
        "6 inc 2 4",
        f"7 constd 2 {modulo - 1}",
        "8 eq 1 4 7",
        "9 ite 2 8 3 6",
        "10 next 2 4 9",
    ]
    for k in range(bads):
        lines += [f"{11 + 3 * k} constd 2 {k % 60}", f"{12 + 3 * k} eq 1 4 {11 + 3 * k}", f"{13 + 3 * k} bad {12 + 3 * k} is_{k}"]
    return "\n".join(lines) + "\n", [k % 60 if k % 60 < modulo else HOLDS for k in range(bads)]


def wait_for(is_so, seconds=60):
    """Waits until something is so."""
    end = time.monotonic() + seconds
    while not is_so() and time.monotonic() < end:
        time.sleep(0.02)
