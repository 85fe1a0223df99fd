"""Each call, on worked examples of the formats, of examples/, and by hand."""

import dataclasses
import os
import pathlib
import pickle
import subprocess
import sys
import tempfile
import textwrap
import threading
import unittest

HERE = pathlib.Path(__file__).resolve().parent
if not os.environ.get("HWTOOL_TEST_INSTALLED"):
    sys.path.insert(0, str(HERE.parent))

import hwtool  # noqa: E402
from hwtool import Claim, Kind, ProofKind, ProofVerdict, Refused, Verdict  # noqa: E402

EXAMPLES = HERE.parents[1] / "examples"

# A bit that begins with 0 and is negated in each frame; the bad property rises in every second one.
TOGGLER = b"1 sort bitvec 1\n2 zero 1\n3 state 1 t\n4 init 1 3 2\n5 not 1 3\n6 next 1 3 5\n7 bad 3\n"
TOGGLER_WITNESS = b"sat\nb0\n#0\n0 0 t\n@0\n@1\n.\n"
# The latch has the bit that the input had a frame before; the bad property rises where the input is 1 twice in turn.
TWICE = b"aag 3 1 1 0 1 1\n2\n4 2\n6\n6 4 2\n"
TWICE_WITNESS = b"1\nb0\n0\n1\n1\n.\n"
# A state that begins with 0 and is kept; the states in which it is 1 are never reached, which propagation alone shows.
KEPT = b"1 sort bitvec 1\n2 zero 1\n3 state 1 s\n4 init 1 3 2\n5 next 1 3 3\n6 bad 3\n"
NEVER_ONE = b".i 1\n.o 1\n.p 1\n.ilb lo0\n.ob inv\n1 1\n.e\n"
NO_CUBE = b".i 0\n.o 1\n.p 0\n.ilb\n.ob inv\n.e\n"
# A latch, and a state, that begins with any bit, is kept, and is bad where it is 1.
FREE_LATCH = b"aag 1 0 1 0 0 1\n2 2 2\n2\n"
KEPT_STATE = b"1 sort bitvec 1\n2 state 1 kept\n3 next 1 2 2\n4 bad 2\n"
# An input that is bad where it is 1, and where it is 0.
EITHER = b"aag 1 1 0 0 0 2\n2\n2\n3\n"
# The same before AIGER 1.9, with outputs as its properties.
EITHER_OUTPUT = b"aag 1 1 0 2 0\n2\n2\n3\n"
# An input that is bad where it is 1, and where it is 0, and a third bad property that never rises.
THREE_BADS = b"1 sort bitvec 1\n2 input 1\n3 not 1 2\n4 zero 1\n5 bad 2\n6 bad 3\n7 bad 4\n"
# The circuit of the state that begins with 0 and is kept.
KEPT_LATCH = b"aag 1 0 1 0 0 1\n2 2\n2\n"
# An input that is seen and bad where it is 1, and that is constrained to be 0.
CONSTRAINED = b"1 sort bitvec 1\n2 input 1\n3 bad 2\n4 not 1 2\n5 constraint 4\n"
NO_NEXT = b"1 sort bitvec 1\n2 zero 1\n3 state 1 s\n4 init 1 3 2\n"


class Witnesses(unittest.TestCase):
    def judged(self, verdict, told, **fields):
        """A verdict has this line, and these fields beside its kind; all others are None."""
        self.assertEqual(str(verdict), told)
        found = dataclasses.asdict(verdict)
        found.pop("of_circuit")
        self.assertEqual({name: value for name, value in found.items() if value is not None}, fields)
        self.assertEqual(verdict.accepted, fields["kind"] is Kind.ACCEPTED)
        self.assertEqual(bool(verdict), verdict.accepted)

    def test_accepted(self):
        told = {"kind": Kind.ACCEPTED, "frames": 2, "claims": ((0, 1),)}
        self.judged(hwtool.check_btor(TOGGLER, TOGGLER_WITNESS), "accepted 2 frames", **told)
        self.judged(hwtool.check_aig(TWICE, TWICE_WITNESS), "accepted 2 frames", **told)
        self.assertEqual(hwtool.check_btor(TOGGLER, TOGGLER_WITNESS), Verdict(Kind.ACCEPTED, frames=2, claims=(Claim(bad=0, frame=1),)))

    def test_claims(self):
        # by the order of the bad properties, however they are claimed, and each with the first of its frames
        for claims, frames, found in (
            (b"b0 b1", b"01", [(0, 1), (1, 0)]), (b"b1 b0", b"011", [(0, 1), (1, 0)]), (b"b1", b"110", [(1, 2)]), (b"b0", b"101", [(0, 0)]),
        ):  # fmt: skip
            with self.subTest(claims=claims, frames=frames):
                steps = b"".join(b"@%d\n0 %c\n" % step for step in enumerate(frames))
                verdict = hwtool.check_btor(THREE_BADS, b"sat\n%s\n%s.\n" % (claims, steps))
                self.judged(verdict, f"accepted {len(frames)} frames", kind=Kind.ACCEPTED, frames=len(frames), claims=tuple(found))
        self.assertEqual(hwtool.check_aig(EITHER, b"1\nb1\n\n1\n0\n0\n.\n").claims, ((1, 1),))
        self.assertIsNone(hwtool.check_aig(EITHER, b"1\nb1\n\n1\n.\n").claims)

    def test_many_claims(self):
        bads = b"".join(b"%d bad 2\n" % line for line in range(3, 5003))
        claims = b" ".join(b"b%d" % number for number in range(5000))
        verdict = hwtool.check_btor(b"1 sort bitvec 1\n2 input 1\n" + bads, b"sat\n%s\n@0\n0 0\n@1\n0 1\n.\n" % claims)
        self.assertEqual(verdict.claims, tuple((number, 1) for number in range(5000)))

    def test_asked_for(self):
        """A witness is accepted for a bad property only where it claims it; what else is said of it stays."""
        both = b"sat\nb0 b1\n@0\n0 0\n@1\n0 1\n.\n"
        first = b"sat\nb0\n@0\n0 0\n@1\n0 1\n.\n"
        for bad in (0, 1):
            self.assertEqual(hwtool.check_btor(THREE_BADS, both, bad=bad), hwtool.check_btor(THREE_BADS, both))
        self.judged(hwtool.check_btor(THREE_BADS, first, bad=1), "not claimed: b1", kind=Kind.NOT_CLAIMED, claim=1)
        self.judged(hwtool.check_btor(THREE_BADS, both, bad=2), "not claimed: b2", kind=Kind.NOT_CLAIMED, claim=2)
        self.judged(hwtool.check_aig(EITHER, b"1\nb0\n\n1\n.\n", bad=1), "not claimed: b1", kind=Kind.NOT_CLAIMED, claim=1)
        self.assertEqual(str(hwtool.check_aig(EITHER, b"1\nb1\n\n0\n.\n", bad=1)), "accepted 1 frames")
        self.assertEqual(str(hwtool.check_btor(THREE_BADS, b"sat\nb2\n@0\n0 0\n.\n", bad=0)), "not reached: b2")
        self.assertEqual(str(hwtool.check_btor(THREE_BADS, b"unsat\n", bad=0)), "no claim")
        self.assertEqual(str(hwtool.check_aig(EITHER, b"1\nb2\n", bad=0)), "malformed line 2: 111 BadClaim")

    def test_claims_of_what_is_made(self):
        """Each acceptance has its claims: over the model or circuit that the written or dumped witness is one of."""
        self.assertEqual(hwtool.lift(TOGGLER, b"1\nb0\n0\n\n\n\n.\n").verdict.claims, ((0, 1),))
        self.assertEqual(hwtool.wave(TOGGLER, TOGGLER_WITNESS).verdict.claims, ((0, 1),))
        self.assertEqual(hwtool.restore(EITHER, b"1\nb0\n0\n1\n0\n.\n", bad=1).verdict.claims, ((1, 1),))
        self.assertEqual(hwtool.restore_abc(EITHER, 0, b"0\n0\n0\n1\n").verdict.claims, ((0, 2),))
        self.assertEqual(hwtool.lift_engine(KEPT_STATE, b"1\nb0\n00\n1\n.\n").verdict.claims, ((0, 0),))
        self.assertEqual(hwtool.lift_engine_abc(KEPT_STATE, 0, b"00\n1\n", names=True).verdict.claims, ((0, 0),))
        self.assertIsNone(hwtool.lift(TOGGLER, b"1\nb0\n0\n\n.\n").verdict.claims)

    def test_not_reached(self):
        self.judged(hwtool.check_btor(TOGGLER, b"sat\nb0\n@0\n.\n"), "not reached: b0", kind=Kind.NOT_REACHED, claim=0)
        self.judged(hwtool.check_aig(TWICE, b"1\nb0\n0\n1\n.\n"), "not reached: b0", kind=Kind.NOT_REACHED, claim=0)

    def test_violated(self):
        self.judged(
            hwtool.check_btor(CONSTRAINED, b"sat\nb0\n@0\n0 0\n@1\n0 1\n.\n"),
            "violated: frame 1, constraint 0", kind=Kind.VIOLATED, frame=1, constraint=0,
        )  # fmt: skip

    def test_initial_values(self):
        told = "initial value differs at 0"
        self.judged(hwtool.check_btor(TOGGLER, b"sat\nb0\n#0\n0 1\n@0\n.\n"), told, kind=Kind.INIT_DIFFERS, state=0)
        self.judged(hwtool.check_aig(TWICE, b"1\nb0\n1\n1\n.\n"), told, kind=Kind.INIT_DIFFERS, state=0)

    def test_malformed(self):
        verdict = hwtool.check_btor(TOGGLER, b"sat\nb0\n#0\n0 0\n0 1\n@0\n.\n")
        self.judged(verdict, "malformed line 5: 115 IndexTwice", kind=Kind.MALFORMED, line=5, why=115, why_name="IndexTwice")
        self.assertEqual(verdict.remedy, "drop one; if they differ, see which is meant")
        # a line without its end, which is met most
        verdict = hwtool.check_aig(TWICE, TWICE_WITNESS[:-1])
        self.judged(verdict, "malformed line 6: 118 Truncated", kind=Kind.MALFORMED, line=6, why=118, why_name="Truncated")
        self.assertIn("echo >>FILE", verdict.remedy)
        # a header has another remedy in either format
        self.assertIn("begin with `sat`", hwtool.check_btor(TOGGLER, b"sta\n").remedy)
        self.assertIn("begin with `1`", hwtool.check_aig(TWICE, b"3\n").remedy)
        self.assertNotIn("begin with `sat`", hwtool.check_aig(TWICE, b"3\n").remedy)

    def test_no_claim(self):
        verdict = hwtool.check_btor(TOGGLER, b"unknown\n")
        self.judged(verdict, "no claim", kind=Kind.NO_CLAIM)
        self.assertIsNone(verdict.remedy)

    def test_lift(self):
        # as docs/FORMATS.md has it
        lifted = hwtool.lift(TOGGLER, b"1\nb0\n0\n\n\n.\n")
        self.assertEqual(lifted.text, b"sat\nb0\n#0\n0 0\n@0\n@1\n.\n")
        self.judged(lifted.verdict, "accepted 2 frames", kind=Kind.ACCEPTED, frames=2, claims=((0, 1),))
        self.assertTrue(lifted)
        empty = hwtool.lift(TOGGLER, b"2\n")
        self.assertEqual((str(empty.verdict), empty.text, bool(empty)), ("no claim", b"", False))

    def test_wave(self):
        dump = hwtool.wave(TOGGLER, TOGGLER_WITNESS, title=b"a title")
        self.judged(dump.verdict, "accepted 2 frames", kind=Kind.ACCEPTED, frames=2, claims=((0, 1),))
        self.assertTrue(dump)
        lines = dump.text.split(b"\n")
        self.assertIn(b"$comment a title $end", lines)
        # the bit is 0, then 1, and so is the bad property
        self.assertEqual(lines[lines.index(b"#0") :], [b"#0", b"0n3", b"0n7", b"#1", b"1n3", b"1n7", b"#2", b""])
        # the negation has no symbol
        self.assertNotIn(b"n5", dump.text)
        self.assertIn(b"$var wire 1 n5 n5 $end", hwtool.wave(TOGGLER, TOGGLER_WITNESS, all=True).text.split(b"\n"))
        self.assertFalse(hwtool.wave(TOGGLER, b"sat\nb0\n@0\n.\n"))


class Circuits(unittest.TestCase):
    def test_lower(self):
        # as README.md has it; the binary form leaves out what its numbering says
        self.assertEqual(hwtool.lower(TOGGLER), b"aag 1 0 1 0 0 1\n2 3\n2\nl0 t[0]\n")
        self.assertEqual(hwtool.lower(TOGGLER, binary=True), b"aig 1 0 1 0 0 1\n3\n2\nl0 t[0]\n")
        self.assertEqual(hwtool.lower(b""), b"aag 0 0 0 0 0\n")

    def test_cost(self):
        cost = hwtool.cost(TOGGLER)
        self.assertEqual((cost.gates, cost.variables, str(cost)), (0, 1, "gates 0\nvariables 1"))

    def test_convert(self):
        # as docs/FORMATS.md has it
        self.assertEqual(hwtool.convert(b"aag 9 1 0 1 2\n18\n3\n2 4 19\n4 18 18\n"), b"aag 3 1 0 1 2\n2\n7\n4 2 2\n6 4 3\n")
        # the gate 6 has the deltas 2 and 2
        self.assertEqual(hwtool.convert(TWICE, binary=True), b"aig 3 1 1 0 1 1\n2\n6\n\x02\x02")
        self.assertEqual(hwtool.convert(b"aig 3 1 1 0 1 1\n2\n6\n\x02\x02"), TWICE)

    def test_engine_form(self):
        # as docs/FORMATS.md has it
        form = b"aag 6 1 2 0 3 1\n2\n4 13\n6 1\n13\n8 6 4\n10 7 2\n12 11 9\n"
        circuit = hwtool.lower(EXAMPLES / "any-start.btor2")
        self.assertEqual(hwtool.engine_form(circuit), form)
        self.assertEqual(hwtool.engine_form(circuit, bad=0), form)
        # two bad properties, of which the second is the first one negated
        both = b"aag 1 0 1 0 0 2\n2 3\n2\n3\n"
        self.assertEqual(hwtool.check_aig(hwtool.engine_form(both, bad=1), b"1\nb0\n0\n0\n.\n").accepted, True)
        self.assertEqual(hwtool.check_aig(hwtool.engine_form(both, bad=0, binary=True), b"1\nb0\n0\n0\n.\n").accepted, False)

    def test_long_text(self):
        # products of words of 64 bits: more than room is first made for, and within the bound
        lines = [b"1 sort bitvec 64", b"2 input 1", b"3 input 1", b"4 mul 1 2 3", b"5 output 4"]
        for line in range(6, 126, 2):
            lines += [b"%d mul 1 %d 3" % (line, line - 2), b"%d output %d" % (line + 1, line)]
        model = b"\n".join([*lines, b""])
        text = hwtool.lower(model)
        self.assertGreater(len(text), (1 << 24) + 32 * len(model))
        header = text.split(b"\n", 1)[0].split()
        self.assertEqual(header[:5], [b"aag", b"%d" % (128 + int(header[5])), b"128", b"0", b"%d" % (64 * 61)])
        self.assertLessEqual(int(header[5]), hwtool.cost(model).gates)
        self.assertEqual(text, hwtool.convert(hwtool.lower(model, binary=True)))


class Engines(unittest.TestCase):
    def told(self, found, line, text):
        """What is restored or lifted, and the line that is told of it."""
        self.assertEqual((str(found.verdict), found.text, bool(found)), (line, text, line.startswith("accepted")))

    def test_restore(self):
        # the latch begins with the bit that the form's input has in frame 0; what is behind the rise is left out
        self.told(hwtool.restore(FREE_LATCH, b"1\nb0\n00\n1\n0\n.\n"), "accepted 1 frames", b"1\nb0\n1\n\n.\n")
        self.told(hwtool.restore(FREE_LATCH, b"1\nb0\n00\n0\n.\n", bad=0), "not reached: b0", b"1\nb0\n0\n\n.\n")
        self.told(hwtool.restore(FREE_LATCH, b"2\n"), "no claim", b"")
        # the form with the second property alone has it as its first
        self.told(hwtool.restore(EITHER, b"1\nb0\n0\n0\n.\n", bad=1), "accepted 1 frames", b"1\nb1\n\n0\n.\n")
        self.told(hwtool.restore(EITHER, b"1\nb1\n0\n0\n.\n"), "accepted 1 frames", b"1\nb1\n\n0\n.\n")

    def test_restore_abc(self):
        self.told(hwtool.restore_abc(FREE_LATCH, 0, b"00\n1# DONE\n"), "accepted 1 frames", b"1\nb0\n1\n\n.\n")
        self.told(hwtool.restore_abc(EITHER, 0, b"0\n0\n1\n1\n"), "accepted 2 frames", b"1\nb0\n\n0\n1\n.\n")
        self.told(hwtool.restore_abc(EITHER, 1, b"0\n0\n"), "accepted 1 frames", b"1\nb1\n\n0\n.\n")

    def test_lift_engine(self):
        lifted = b"sat\nb0\n#0\n0 1\n@0\n.\n"
        self.told(hwtool.lift_engine(KEPT_STATE, b"1\nb0\n00\n1\n.\n"), "accepted 1 frames", lifted)
        self.told(hwtool.lift_engine(KEPT_STATE, b"1\nb0\n00\n1\n.\n", bad=0, names=True), "accepted 1 frames", lifted.replace(b"0 1", b"0 1 kept@0"))
        self.told(hwtool.lift_engine_abc(KEPT_STATE, 0, b"00\n1\n"), "accepted 1 frames", lifted)
        self.told(hwtool.lift_engine_abc(KEPT_STATE, 0, b"00\n1\n", names=True), "accepted 1 frames", lifted.replace(b"0 1", b"0 1 kept@0"))

    def test_faulty_line(self):
        found = hwtool.restore_abc(FREE_LATCH, 0, b"00\n0\nx\n")
        self.told(found, "malformed line 3: 152 NoBit", b"1\nb0\n0\n\n")
        self.assertEqual(found.verdict, Verdict(Kind.MALFORMED, line=3, why=152, why_name="NoBit"))
        self.assertIn("write `0` and `1` alone", found.verdict.remedy)
        self.told(hwtool.lift_engine_abc(KEPT_STATE, 0, b"1\n"), "malformed line 1: 151 InitialOne", b"")
        self.told(hwtool.restore(FREE_LATCH, b"1\nb0\n00\n0\nx\n"), "malformed line 5: 117 Undetermined", b"1\nb0\n0\n\n")


class Certificates(unittest.TestCase):
    def test_obligation(self):
        self.assertEqual(hwtool.obligation(KEPT, 0, NEVER_ONE), b"p cnf 5 5\n3 0\n-2 0\n-4 2 0\n-5 2 0\n4 5 0\n")
        # as docs/FORMATS.md has it
        guarded = hwtool.obligation(EXAMPLES / "guarded.btor2", 0, EXAMPLES / "guarded.invariant")
        self.assertEqual(guarded.split(b"\n")[:4], [b"p cnf 9 15", b"7 0", b"-4 -2 0", b"-4 -1 0"])

    def test_over_circuits(self):
        # as over the model of the circuit
        self.assertEqual(hwtool.obligation_aig(KEPT_LATCH, 0, NEVER_ONE), b"p cnf 5 5\n3 0\n-2 0\n-4 2 0\n-5 2 0\n4 5 0\n")
        self.assertEqual(hwtool.check_proof_aig(KEPT_LATCH, 0, NEVER_ONE, b""), ProofVerdict(ProofKind.HOLDS, 0, line=0))
        self.assertEqual(hwtool.check_proof_aig(KEPT_LATCH, 0, NO_CUBE, b""), ProofVerdict(ProofKind.NOT_DERIVED, 0))
        self.assertFalse(hwtool.check_proof_aig(FREE_LATCH, 0, NEVER_ONE.replace(b"lo0", b"lo1"), b""))
        for model, bad in (("wraps", 0), ("guarded", 0), ("followers", 0), ("two-counters", 1)):
            with self.subTest(model):
                circuit = hwtool.lower(EXAMPLES / f"{model}.btor2")
                verdict = hwtool.check_proof_aig(circuit, bad, EXAMPLES / f"{model}.invariant", EXAMPLES / f"{model}.proof")
                self.assertEqual(str(verdict), f"holds: b{bad}")

    def test_holds(self):
        for model, bad in (("wraps", 0), ("guarded", 0), ("followers", 0), ("two-counters", 1)):
            with self.subTest(model):
                verdict = hwtool.check_proof(*(EXAMPLES / f"{model}.btor2", bad, EXAMPLES / f"{model}.invariant", EXAMPLES / f"{model}.proof"))
                self.assertEqual(str(verdict), f"holds: b{bad}")
                self.assertTrue(verdict.holds and verdict)
        # propagation alone shows it
        self.assertEqual(hwtool.check_proof(KEPT, 0, NEVER_ONE, b""), ProofVerdict(ProofKind.HOLDS, 0, line=0))

    def test_another_property(self):
        # the first bad property of the two counters does rise, whatever is shown of the second
        model, invariant, proof = (EXAMPLES / f"two-counters.{end}" for end in ("btor2", "invariant", "proof"))
        self.assertFalse(hwtool.check_proof(model, 0, invariant, proof).holds)

    def test_not_derived(self):
        verdict = hwtool.check_proof(KEPT, 0, NO_CUBE, b"")
        self.assertEqual(verdict, ProofVerdict(ProofKind.NOT_DERIVED, 0))
        self.assertEqual((str(verdict), verdict.holds, bool(verdict)), ("not derived", False, False))

    def test_not_implied(self):
        verdict = hwtool.check_proof(KEPT, 0, NO_CUBE, b"c a step that follows, and one that does not\n2 0\n-2 0\n0\n")
        self.assertEqual(verdict, ProofVerdict(ProofKind.NOT_IMPLIED, 0, line=3))
        self.assertEqual((str(verdict), verdict.holds), ("not implied line 3", False))

    def test_malformed(self):
        verdict = hwtool.check_proof(KEPT, 0, NO_CUBE, b"2 0\n+2 0\n")
        self.assertEqual(verdict, ProofVerdict(ProofKind.MALFORMED, 0, line=2, why=161, why_name="BadWord"))
        self.assertEqual((str(verdict), verdict.holds), ("malformed line 2: 161 BadWord", False))
        self.assertIn("DRAT", verdict.remedy)

    def test_hints(self):
        model, invariant, proof = (EXAMPLES / f"wraps.{end}" for end in ("btor2", "invariant", "lrat"))
        self.assertEqual(str(hwtool.check_proof(model, 0, invariant, proof, lrat=True)), "holds: b0")
        self.assertEqual(str(hwtool.check_proof_aig(hwtool.lower(model), 0, invariant, proof, lrat=True)), "holds: b0")
        # without hints in mind ids are literals
        self.assertEqual(str(hwtool.check_proof(KEPT, 0, NO_CUBE, b"5 0 1 0\n", lrat=True)), "not implied line 1")
        self.assertEqual(str(hwtool.check_proof(KEPT, 0, NO_CUBE, b"5 0 1 0\n")), "malformed line 1: 162 BadVariable")
        self.assertEqual(str(hwtool.check_proof_circuit(KEPT_LATCH, 0, KEPT_LATCH, b"", aiger=True, lrat=True)), "not derived")


class Refusals(unittest.TestCase):
    def refused(self, call, *given, line, number, name, kind, unit, place, remedy, **named):
        """A call refuses what it is given, in these words."""
        with self.assertRaises(Refused) as caught:
            call(*given, **named)
        found = caught.exception
        self.assertEqual(str(found), line)
        self.assertEqual(
            (found.number, found.name, found.kind, found.unit, found.place, found.file), (number, name, kind, unit, place, None)
        )
        self.assertIn(remedy, found.remedy)

    def test_text_of_model(self):
        for call, rest in (
            (hwtool.lower, ()), (hwtool.cost, ()), (hwtool.check_btor, (b"sat\n",)), (hwtool.lift, (b"1\n",)),
            (hwtool.wave, (b"sat\n",)), (hwtool.obligation, (0, NEVER_ONE)), (hwtool.check_proof, (0, NEVER_ONE, b"")),
            (hwtool.lift_engine, (b"1\n",)), (hwtool.lift_engine_abc, (0, b"0\n0\n")),
        ):  # fmt: skip
            with self.subTest(call.__name__):
                self.refused(
                    call, b"1 sort bitvec 1\n2 frobnicate 1\n", *rest, line="model: line 2: 23 UnknownOperator", number=23,
                    name="UnknownOperator", kind="model", unit="line", place=2, remedy="use a form that FORMATS lists",
                )  # fmt: skip

    def test_item_of_a_line(self):
        self.refused(
            hwtool.lower, b"1 sort bitvec 65\n", line="model: line 1: 5 WidthOutOfRange", number=5, name="WidthOutOfRange",
            kind="model", unit="line", place=1, remedy="a word has more than 64 bits, or none",
        )  # fmt: skip

    def test_text_of_circuit(self):
        for call, rest in (
            (hwtool.convert, ()), (hwtool.engine_form, ()), (hwtool.check_aig, (b"1\n",)), (hwtool.restore, (b"1\n",)),
            (hwtool.restore_abc, (0, b"0\n0\n")), (hwtool.obligation_aig, (0, NEVER_ONE)), (hwtool.check_proof_aig, (0, NEVER_ONE, b"")),
        ):  # fmt: skip
            with self.subTest(call.__name__):
                self.refused(
                    call, TOGGLER, *rest, line="circuit: byte 0: 50 BadHeader", number=50, name="BadHeader", kind="circuit",
                    unit="byte", place=0, remedy="`lower` makes a circuit of a model",
                )  # fmt: skip
        self.refused(
            hwtool.convert, b"aag 1 1 0 0 0\n2", line="circuit: byte 14: 58 Truncated", number=58, name="Truncated",
            kind="circuit", unit="byte", place=14, remedy="end each line with a line feed",
        )  # fmt: skip

    def test_items(self):
        remedy = "give the state an input of its own as its next"
        for call, number, rest in (
            (hwtool.lower, 92, ()), (hwtool.lift, 92, (b"1\n",)), (hwtool.check_btor, 70, (b"sat\n",)),
            (hwtool.wave, 70, (b"sat\n",)), (hwtool.obligation, 92, (0, NEVER_ONE)), (hwtool.check_proof, 92, (0, NEVER_ONE, b"")),
            (hwtool.lift_engine, 92, (b"1\n",)), (hwtool.lift_engine_abc, 92, (0, b"0\n0\n")),
        ):  # fmt: skip
            with self.subTest(call.__name__):
                self.refused(
                    call, NO_NEXT, *rest, line=f"model: item 3: {number} NoNext", number=number, name="NoNext", kind="model",
                    unit="item", place=3, remedy=remedy,
                )  # fmt: skip

    def test_whole(self):
        for call, given, kind in (
            (hwtool.check_btor, {"model": KEPT, "bad": 1, "witness": b""}, "model"),
            (hwtool.check_aig, {"circuit": TWICE, "bad": 2**64 - 1, "witness": b""}, "circuit"),
            (hwtool.engine_form, {"circuit": TWICE, "bad": 1}, "circuit"),
            (hwtool.engine_form, {"circuit": TWICE, "bad": 2**64 - 1}, "circuit"),
            (hwtool.obligation, {"model": KEPT, "bad": 1, "invariant": NEVER_ONE}, "model"),
            (hwtool.check_proof, {"model": KEPT, "bad": 1, "invariant": NEVER_ONE, "proof": b""}, "model"),
            (hwtool.restore, {"circuit": TWICE, "bad": 1, "witness": b""}, "circuit"),
            (hwtool.restore_abc, {"circuit": TWICE, "bad": 1, "found": b""}, "circuit"),
            (hwtool.lift_engine, {"model": KEPT, "bad": 1, "witness": b""}, "model"),
            (hwtool.lift_engine_abc, {"model": KEPT, "bad": 1, "found": b""}, "model"),
            (hwtool.obligation_aig, {"circuit": TWICE, "bad": 1, "invariant": NEVER_ONE}, "circuit"),
            (hwtool.check_proof_aig, {"circuit": TWICE, "bad": 1, "invariant": NEVER_ONE, "proof": b""}, "circuit"),
        ):
            with self.subTest(call.__name__):
                self.refused(
                    call, **given, line=f"{kind}: 142 NoSuchBad", number=142, name="NoSuchBad", kind=kind, unit=None, place=None,
                    remedy="count bad properties from 0",
                )  # fmt: skip

    def test_outputs_alone(self):
        """A circuit that has outputs and no bad property is refused with what to do, and its witness is not blamed."""
        for call, rest in (
            (hwtool.check_aig, {"witness": b"1\nb0\n\n1\n.\n"}), (hwtool.check_aig, {"witness": b"2\n", "bad": 0}),
            (hwtool.engine_form, {}), (hwtool.restore, {"witness": b"1\nb0\n0\n1\n.\n"}),
            (hwtool.restore_abc, {"bad": 0, "found": b"0\n1\n"}), (hwtool.obligation_aig, {"bad": 0, "invariant": NO_CUBE}),
            (hwtool.check_proof_aig, {"bad": 0, "invariant": NO_CUBE, "proof": b""}),
            (hwtool.obligation_circuit, {"bad": 0, "witness": EITHER, "aiger": True}),
            (hwtool.check_proof_circuit, {"bad": 1, "witness": EITHER, "proof": b"", "aiger": True}),
        ):  # fmt: skip
            with self.subTest(call.__name__):
                self.refused(
                    call, EITHER_OUTPUT, **rest, line="circuit: 145 NoBad", number=145, name="NoBad", kind="circuit", unit=None,
                    place=None, remedy="`aig-convert --outputs` makes each a bad one",
                )  # fmt: skip
        # so is a model whose circuit is such
        for witness in (b"1\nb0\n\n1\n.\n", b"2\n", b""):
            self.refused(
                hwtool.lift, b"1 sort bitvec 1\n2 input 1\n3 output 2\n", witness, line="model: 145 NoBad", number=145, name="NoBad",
                kind="model", unit=None, place=None, remedy="`aig-convert --outputs` makes each a bad one",
            )  # fmt: skip
        self.assertEqual(str(hwtool.lift(b"1 sort bitvec 1\n2 input 1\n", b"1\nb0\n\n1\n.\n").verdict), "malformed line 2: 111 BadClaim")
        # without outputs nothing else may be meant
        self.assertEqual(str(hwtool.check_aig(b"aag 1 1 0 0 0\n2\n", b"1\nb0\n\n1\n.\n")), "malformed line 2: 111 BadClaim")

    def test_invariants(self):
        for call, first, rest in (
            (hwtool.obligation, KEPT, ()), (hwtool.check_proof, KEPT, (b"",)), (hwtool.obligation_aig, KEPT_LATCH, ()),
            (hwtool.check_proof_aig, KEPT_LATCH, (b"",)),
        ):  # fmt: skip
            with self.subTest(call.__name__):
                self.refused(
                    call, first, 0, NEVER_ONE.replace(b"1 1\n", b"0 1\n"), *rest, line="invariant: line 6: 190 HoldsAtStart",
                    number=190, name="HoldsAtStart", kind="invariant", unit="line", place=6, remedy="it is no invariant of an engine form",
                )  # fmt: skip

    def test_pickled(self):
        with self.assertRaises(Refused) as caught:
            hwtool.lower(NO_NEXT)
        again = pickle.loads(pickle.dumps(caught.exception))
        self.assertEqual((str(again), again.remedy), (str(caught.exception), caught.exception.remedy))
        verdict = hwtool.check_btor(TOGGLER, TOGGLER_WITNESS)
        self.assertEqual(pickle.loads(pickle.dumps(verdict)), verdict)


class Texts(unittest.TestCase):
    def test_bytes_and_paths(self):
        path = EXAMPLES / "toggler.btor2"
        content, witness = path.read_bytes(), EXAMPLES / "toggler.witness"
        spread = bytearray(2 * len(content))
        spread[::2] = content
        for text in (path, str(path), content, bytearray(content), memoryview(content), memoryview(spread)[::2]):
            with self.subTest(type(text).__name__):
                self.assertEqual(hwtool.lower(text), b"aag 1 0 1 0 0 1\n2 3\n2\nl0 t[0]\n")
                self.assertEqual(str(hwtool.check_btor(text, witness)), "accepted 2 frames")
                self.assertEqual(str(hwtool.check_btor(path, bytearray(witness.read_bytes()))), "accepted 2 frames")

    def test_file_is_named(self):
        path = EXAMPLES / "no-next.btor2"
        with self.assertRaises(Refused) as caught:
            hwtool.lower(path)
        self.assertEqual((str(caught.exception), caught.exception.file), (f"{path}: item 3: 92 NoNext", str(path)))
        with tempfile.TemporaryDirectory() as folder:
            invariant = pathlib.Path(folder) / "nothing.invariant"
            invariant.write_bytes(b"")
            with self.assertRaises(Refused) as caught:
                hwtool.obligation(KEPT, 0, invariant)
            self.assertEqual(str(caught.exception), f"{invariant}: line 1: 193 CutOff")

    def test_empty(self):
        self.assertEqual(hwtool.lower(b""), b"aag 0 0 0 0 0\n")
        self.assertEqual(str(hwtool.check_btor(b"", b"")), "malformed line 1: 118 Truncated")
        self.assertEqual(str(hwtool.check_aig(TWICE, b"")), "malformed line 1: 118 Truncated")
        self.assertEqual(hwtool.wave(TOGGLER, TOGGLER_WITNESS, title=b"").verdict.accepted, True)
        for call in (hwtool.convert, hwtool.engine_form):
            with self.assertRaisesRegex(Refused, "^circuit: byte 0: 58 Truncated$"):
                call(b"")

    def test_no_file(self):
        for call, rest in ((hwtool.lower, ()), (hwtool.check_aig, (TWICE_WITNESS,)), (hwtool.obligation, (0, NEVER_ONE))):
            with self.assertRaises(FileNotFoundError):
                call("nothere.btor2", *rest)
            with self.assertRaises(FileNotFoundError):
                call("", *rest)
            with self.assertRaises(IsADirectoryError):
                call(EXAMPLES, *rest)
        with self.assertRaises(FileNotFoundError):
            hwtool.check_btor(TOGGLER, pathlib.Path("nothere.witness"))
        with self.assertRaises(ValueError):
            hwtool.lower("a\0b")
        # a text that is given as if it were a path
        with self.assertRaisesRegex(ValueError, "handed in as bytes"):
            hwtool.lower(TOGGLER.decode())
        with self.assertRaisesRegex(ValueError, "handed in as bytes"):
            hwtool.lower(TOGGLER.decode() * 1000)

    def test_no_text(self):
        for text in (None, 0, 7, [1, 2], object()):
            with self.assertRaisesRegex(TypeError, "bytes or the path of its file"):
                hwtool.lower(text)
        with self.assertRaises(TypeError):
            hwtool.wave(TOGGLER, TOGGLER_WITNESS, title="a title")

    def test_positions(self):
        for bad in (-1, 2**64, -(2**64)):
            for call in (
                lambda: hwtool.check_btor(KEPT, b"", bad=bad),
                lambda: hwtool.check_aig(TWICE, b"", bad=bad),
                lambda: hwtool.engine_form(TWICE, bad=bad),
                lambda: hwtool.obligation(KEPT, bad, NEVER_ONE),
                lambda: hwtool.check_proof(KEPT, bad, NEVER_ONE, b""),
                lambda: hwtool.restore(TWICE, b"", bad=bad),
                lambda: hwtool.restore_abc(TWICE, bad, b""),
                lambda: hwtool.lift_engine(KEPT, b"", bad=bad),
                lambda: hwtool.lift_engine_abc(KEPT, bad, b""),
                lambda: hwtool.obligation_aig(KEPT_LATCH, bad, NEVER_ONE),
                lambda: hwtool.check_proof_aig(KEPT_LATCH, bad, NEVER_ONE, b""),
            ):
                with self.assertRaises(ValueError):
                    call()
        with self.assertRaises(TypeError):
            hwtool.engine_form(TWICE, bad="0")
        with self.assertRaises(TypeError):
            hwtool.obligation(KEPT, 0.0, NEVER_ONE)

    def test_zero_bytes(self):
        # a text is not cut at a zero byte
        self.assertEqual(str(hwtool.check_btor(TOGGLER, TOGGLER_WITNESS + b"\0")), "malformed line 8: 119 Trailing")
        with self.assertRaisesRegex(Refused, "^model: line 8: 20 BadToken$"):
            hwtool.lower(TOGGLER + b"\0\n")

    def test_answers_stay(self):
        with self.assertRaises(dataclasses.FrozenInstanceError):
            hwtool.cost(TOGGLER).gates = 1
        with self.assertRaises(dataclasses.FrozenInstanceError):
            hwtool.check_btor(TOGGLER, TOGGLER_WITNESS).kind = Kind.NO_CLAIM
        self.assertEqual(len({hwtool.check_btor(TOGGLER, TOGGLER_WITNESS) for _ in range(3)}), 1)


class Machine(unittest.TestCase):
    def test_threads(self):
        """Many threads at once, some of which are refused: each is told what is its own."""
        wrong = []

        def work(number):
            frames = 2 + number % 40
            witness = b"sat\nb0\n" + b"".join(b"@%d\n" % frame for frame in range(frames)) + b".\n"
            for _ in range(50):
                if str(hwtool.check_btor(TOGGLER, witness)) != f"accepted {frames} frames":
                    wrong.append(f"judged {number}")
                if hwtool.lower(TOGGLER) != b"aag 1 0 1 0 0 1\n2 3\n2\nl0 t[0]\n":
                    wrong.append(f"lowered {number}")
                try:
                    hwtool.cost(b"\n" * number + b"x\n")
                    wrong.append(f"taken {number}")
                except Refused as refused:
                    if (refused.number, refused.place) != (20, number + 1):
                        wrong.append(f"refused {number}: {refused}")

        threads = [threading.Thread(target=work, args=(number,)) for number in range(32)]
        for thread in threads:
            thread.start()
        for thread in threads:
            thread.join()
        self.assertEqual(wrong, [])

    def test_no_memory(self):
        """Where memory is wanting that is told as such, also when the first guess of a buffer's length was too long."""
        done = subprocess.run(
            [sys.executable, "-c", textwrap.dedent("""
                import resource, sys
                sys.path[:] = eval(sys.argv[1])
                import hwtool
                lines = ["1 sort bitvec 64", "2 input 1"]
                lines += [f"{it} mul 1 {it - 1} 2" for it in range(3, 1000)]
                model, small = "\\n".join([*lines, ""]).encode(), b"1 sort bitvec 1\\n2 input 1\\n"
                taken = int(open("/proc/self/statm").read().split()[0]) * resource.getpagesize()
                resource.setrlimit(resource.RLIMIT_AS, (taken + (12 << 20), resource.RLIM_INFINITY))
                for call in (hwtool.lower, lambda it: hwtool.lower(it, binary=True)):
                    try:
                        call(model)
                        print("lowered")
                    except MemoryError as error:
                        print(f"MemoryError: {error}")
                print(hwtool.lower(small))
            """), repr(sys.path)],
            capture_output=True, text=True,
        )  # fmt: skip
        self.assertEqual(done.stderr, "")
        self.assertEqual(done.stdout.splitlines(), ["MemoryError: hwtool: no memory"] * 2 + ["b'aag 1 1 0 0 0\\n2\\n'"])


if __name__ == "__main__":
    unittest.main()
