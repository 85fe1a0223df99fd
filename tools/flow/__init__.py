"""The parts of hwtool-flow: from a design to verdicts that `hwtool` has checked.

    command_line   the words, the order of things, the exit status
    reading        a design as the texts that `hwtool` takes: Verilog by Yosys, BTOR2, AIGER
    verilog        a design in Verilog on its way: what was read, one flat module, what is written
    names          names of files that Yosys neither expands nor runs
    yosys          runs of Yosys, what it warns of, and how it fails
    recipe         its steps, with clocked.v, free-x.v and enables.v, which are maps of cells
    rtlil          the text of a netlist, and what drives each bit
    clocks         what a flat design waits for, and so what a frame is
    statements     what the source asserts, assumes and covers
    account        what becomes of each statement, by name
    vacuity        a text that asks for how long the assumptions can hold
    model          what is proved of: a design, its texts and properties; and what shows a verdict
    engines        the table of engines and solvers, and those that the words name
    running        processes: each in a session of its own, bounded, ended with all that came of it
    warden         what stands around a program of which nothing is known
    program        the calls of `hwtool`, and what its words say
    files          files that no other process can change
    folders        the folder of results, which has a mark
    proving        one property: engines in order, and what they claim, checked
    asking         what is asked of a design, text by text
    findings       what the judgements mean for each property
    results        what was judged, and by which programs
    summary        results.json
    check_script   check.sh
    telling        the lines on the terminal
    waves          the frames of a witness, signal by signal
    pictures       these frames as a picture (SVG)
    report         the page, report.html, with page.css and page.js
    markup         pieces of it

No part decides what holds: a verdict is the exit status and the words of `check-btor`, `check-aig` or `check-proof`.
"""
