"""Judges a witness of a BTOR2 model by the package `hwtool` (python/README.md):

    $ python3 examples/python/judge.py examples/toggler.btor2 examples/toggler.witness
    accepted 2 frames
"""
import sys
import hwtool
verdict = hwtool.check_btor(*sys.argv[1:])
print(verdict)
sys.exit(not verdict.accepted)
