"""A text that asks for how long the assumptions of a model can hold: it has a bad property for each frame, which rises from that on.

A chain of registers begins with 0 and takes in a 1, so that the one with the number K is 1 from frame K on. Of the model all is there
but its bad properties: a witness in which property K rises is one of all assumptions up to frame K, and where it never rises, they
never hold so long.
"""


def over_words(shown: str, frames: int) -> str:
    """The text in BTOR2 for so many frames, of the one spelling of a model."""
    lines = [line for line in shown.splitlines() if line[:1].isdigit() and line.split()[1] != "bad"]
    sort = max((int(line.split()[0]) for line in lines), default=0) + 1
    one, zero, new = sort + 1, sort + 2, sort + 3
    chain, nodes = [f"{sort} sort bitvec 1", f"{one} one {sort}", f"{zero} zero {sort}"], [one]
    for _ in range(1, frames):
        chain += [f"{new} state {sort}", f"{new + 1} init {sort} {new} {zero}", f"{new + 2} next {sort} {new} {nodes[-1]}"]
        nodes.append(new)
        new += 3
    return "\n".join([*lines, *chain, *(f"{new + at} bad {it} {name_of(at)}" for at, it in enumerate(nodes))]) + "\n"


def over_bits(shown: str, frames: int) -> str:
    """The text in AIGER for so many frames, of the ascii form of a circuit; justice and fairness are left out."""
    lines = shown.splitlines()
    header = [int(it) for it in lines[0].split()[1:]]
    most, inputs, latches, outputs, gates, bads, constraints, justice, fairness = (header + [0] * 4)[:9]
    at = 1 + inputs + latches
    front, at = lines[1:at], at + outputs + bads
    assumed, at = lines[at : at + constraints], at + constraints
    at += justice + sum(map(int, lines[at : at + justice])) + fairness
    names = [line for line in lines[at + gates :] if line[:1] in ("i", "l", "c") and line[1:2].isdigit()]
    chain = [2 * (most + 1 + it) for it in range(frames - 1)]
    added = [f"{it} {before}" for it, before in zip(chain, [1, *chain])]
    head = f"aag {most + len(chain)} {inputs} {latches + len(chain)} 0 {gates} {frames} {constraints}"
    asked = [*map(str, [1, *chain]), *assumed, *lines[at : at + gates], *names, *(f"b{it} {name_of(it)}" for it in range(frames))]
    return "\n".join([head, *front, *added, *asked]) + "\n"


def name_of(frame: int) -> str:
    """The name of the property of a frame."""
    return f"assumptions_hold_in_frame_{frame}"
