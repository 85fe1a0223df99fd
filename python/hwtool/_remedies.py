"""What refusals mean and what to do about them. Made by make_remedies.py from docs/REFUSALS.md."""

from typing import Dict, Tuple

# By number: the cases, each with the part of the tool that tells it, its name, when it is told and what to do then.
CASES: Dict[int, Tuple[Tuple[str, str, str, str], ...]] = {
    1: (
        (
            'Items of a model',
            'IdTaken',
            'an earlier item has the id',
            'give one of them another id, also where operands name it',
        ),
    ),
    2: (
        (
            'Items of a model',
            'IdOutOfRange',
            'the id is not 1 to 4,294,967,295',
            'renumber lines and operands',
        ),
    ),
    3: (
        (
            'Items of a model',
            'NoSuchSort',
            "the sort's id is no earlier sort",
            'define the sort on an earlier line',
        ),
    ),
    4: (
        (
            'Items of a model',
            'NoSuchNode',
            'an operand is no earlier node with a value: sorts, inits, nexts and properties have none',
            'define the operand on an earlier line',
        ),
    ),
    5: (
        (
            'What is met most',
            'WidthOutOfRange',
            'a word has more than 64 bits, or none: of line 4, `sed -n 4p FILE` shows the width',
            '`hwtool fit FILE >NEW` puts words of up to 1,048,576 bits into pieces, and what is judged over that holds of the model',
        ),
        (
            'Items of a model',
            'WidthOutOfRange',
            "a sort's width is not 1 to 64",
            '`hwtool fit FILE >NEW` takes words of up to 1,048,576 bits: see what is met most',
        ),
    ),
    6: (
        (
            'Items of a model',
            'SortMismatch',
            "the sort's and operands' widths are not the form's",
            'name the sort that the form needs; widen an operand by `uext`, or a signed one by `sext`; `slice` drops bits, so means something else',
        ),
    ),
    7: (
        (
            'Items of a model',
            'SliceOutOfRange',
            'the bits of a slice are not `lower <= upper < width`',
            'count bits from 0; name the upper one first',
        ),
    ),
    8: (
        (
            'Items of a model',
            'NotAState',
            'the first operand of `init` or `next` is no state',
            'name the state first, its value second',
        ),
    ),
    9: (
        (
            'Items of a model',
            'SecondInit',
            'the state has an `init` already',
            'drop one; if they differ, see which is meant',
        ),
    ),
    10: (
        (
            'Items of a model',
            'SecondNext',
            'the state has a `next` already',
            'drop one; if they differ, see which is meant',
        ),
    ),
    11: (
        (
            'Items of a model',
            'InitNotConstant',
            "an init's value is no constant (`zero`, `one`, `ones`, `const`, `constd`, `consth`)",
            '`hwtool fit FILE >NEW` takes any line, also a register of which only some bits have an initial value; no constraint does, which is for every frame',
        ),
    ),
    12: (
        (
            'Items of a model',
            'TooManyItems',
            'the model has 1,048,576 items',
            'drop what no property or constraint needs (Yosys: `opt_clean -purge`), or write one model per bad property',
        ),
    ),
    13: (
        (
            'Items of a model',
            'JusticeEmpty',
            'a `justice` line names no node',
            'leave it out: no bad property needs it',
        ),
    ),
    14: (
        (
            'Items of a model',
            'NoMemory',
            'out of memory; from a text told as 30',
            'add memory',
        ),
    ),
    15: (
        (
            'Items of a model',
            'ConstantDoesNotFit',
            'at width n: not n binary digits, a decimal not from -2^(n-1) to 2^n - 1, not 1 to 16 hexadecimal digits, or a value of 2^n or more; from a text told as 25',
            "write it in the sort's width, with all digits",
        ),
    ),
    16: (
        (
            'Names',
            'BadBytes',
            'not 1 to 255 bytes from 33 to 126, the first not `;`',
            'choose another name',
        ),
    ),
    17: (
        (
            'Names',
            'NoMemory',
            'out of memory',
            'add memory',
        ),
    ),
    20: (
        (
            'What is met most',
            'BadToken',
            "a carriage return ends the line, as on Windows: `grep -c $'\\r' FILE` counts them",
            "`tr -d '\\r' <FILE >NEW`",
        ),
        (
            'What is met most',
            'BadToken',
            'at line 1: the file begins with an invisible byte order mark: `od -c -N3 FILE` prints `357 273 277`',
            '`tail -c +4 FILE >NEW`',
        ),
        (
            'What is met most',
            'BadToken',
            'at line 1: the file is no BTOR2 but Verilog, AIGER or a witness: `head -n1 FILE` tells; or compressed: `od -An -tx1 -N6 FILE` begins with `1f 8b` (gzip), `fd 37 7a 58 5a 00` (xz) or `28 b5 2f fd` (zstd)',
            "for Verilog use Yosys's `write_btor`; give circuits to `aig-convert` and `check-aig`; name the model before the witness; decompress: `gzip -dc <FILE >NEW`, `xz -dc <FILE >NEW`, `zstd -dc <FILE >NEW`",
        ),
        (
            'Texts of models',
            'BadToken',
            'the first token is no decimal (`0`, or 1 to 9 and digits), or there is no second',
            'number the line; write decimals without sign or leading zeros',
        ),
        (
            'Texts of models',
            'BadToken',
            'a token is missing, or is no number where one must stand; a negative number stands where no operand does; a constant has a byte that is no digit; a justice count is 2^64 - 1 or more',
            'write the form as FORMATS has it; for `z` in a constant, as in `const 1 1zzz`, `setundef -zero` in Yosys before `write_btor` puts 0, which changes the design',
        ),
        (
            'Texts of models',
            'BadToken',
            'a token follows the symbol',
            'keep names in one token; begin a comment with `;`',
        ),
    ),
    21: (
        (
            'What is met most',
            'ArraySort',
            'the model has memories',
            '`hwtool fit FILE >NEW` makes them words, and what is judged over that holds of the model; in Yosys, `memory_map` before `write_btor`',
        ),
        (
            'Texts of models',
            'ArraySort',
            '`sort array`; of `fit` one of arrays, or of more than 1,048,576 bits together',
            '`hwtool fit FILE >NEW` takes arrays of words; in Yosys, `memory_map` before `write_btor`; `clk2fflogic; memory_map -formal` for a memory with two write clocks',
        ),
    ),
    22: (
        (
            'What is met most',
            'ArrayOperator',
            'the model reads or writes a memory',
            '`hwtool fit FILE >NEW` makes them words, and what is judged over that holds of the model; in Yosys, `memory_map` before `write_btor`',
        ),
        (
            'Texts of models',
            'ArrayOperator',
            'the form is `read` or `write`',
            '`hwtool fit FILE >NEW` takes arrays of words; in Yosys, `memory_map` before `write_btor`; `clk2fflogic; memory_map -formal` for a memory with two write clocks',
        ),
    ),
    23: (
        (
            'Texts of models',
            'UnknownOperator',
            'the form is no word of the format',
            'use a form that FORMATS lists; for `udivo` put `zero`: unsigned division never overflows',
        ),
    ),
    24: (
        (
            'Texts of models',
            'NegativeOperand',
            'an operand is `-` and a decimal; of `fit` where that is an array, or the state of an `init` or a `next`',
            'it means all bits inverted: `hwtool fit FILE >NEW` takes it; or give `not` of the operand a line and name that; in an `init`, name a constant with inverted bits',
        ),
    ),
    25: (
        (
            'Texts of models',
            'ConstantDoesNotFit',
            'the constant does not fit its sort; a push tells 15',
            "write it in the sort's width, with all digits",
        ),
    ),
    26: (
        (
            'What is met most',
            'BadSymbol',
            "a name has a byte above 126 (any UTF-8 letter) or a control character, such as a carriage return: `LC_ALL=C grep -n '[^ -~]' FILE`",
            "rename it in ASCII; `tr -d '\\r' <FILE >NEW` drops carriage returns",
        ),
        (
            'Texts of models',
            'BadSymbol',
            'the symbol has more than 255 bytes, or one outside 33 to 126',
            'shorten it, or write it in ASCII',
        ),
    ),
    27: (
        (
            'Texts of models',
            'Refused',
            'a push refuses the item otherwise: its own number and name, of the next table, are printed',
            'as there',
        ),
    ),
    28: (
        (
            'What is met most',
            'Unfinished',
            'the last line has no line feed, or the file is cut: `tail -c1 FILE | od -c` prints no `\\n`; or it is compressed, as with 20',
            '`echo >>FILE` if it is whole, else fetch it again; decompress as with 20',
        ),
        (
            'Texts of models',
            'Unfinished',
            'the last line has bytes and no line feed; earlier lines are read first',
            'end the file with a line feed, or fetch it whole',
        ),
    ),
    29: (
        (
            'Texts of models',
            'Device',
            'reading failed',
            'name a readable file',
        ),
    ),
    30: (
        (
            'Texts of models',
            'NoMemory',
            'out of memory',
            'add memory',
        ),
    ),
    40: (
        (
            'Circuits',
            'LiteralOutOfRange',
            "a literal's variable is above the circuit's greatest; in `Loose`, a defining literal is odd, below 2 or of a variable defined already",
            'make the gate first; define each variable once',
        ),
    ),
    41: (
        (
            'Circuits',
            'OrderBroken',
            "a gate's second operand is above its first",
            'give the greater literal first',
        ),
    ),
    42: (
        (
            'Circuits',
            'TooBig',
            'a variable, a count or the sum of justice sizes would be above 2^30',
            'make one circuit per bad property, of only what it and the constraints need',
        ),
    ),
    43: (
        (
            'Circuits',
            'NoMemory',
            'out of memory',
            'add memory',
        ),
    ),
    44: (
        (
            'Circuits',
            'NoSuchPosition',
            'the section lacks the named position',
            'make the position first',
        ),
    ),
    45: (
        (
            'Circuits',
            'NameTaken',
            'the position has a name already',
            'name each position once',
        ),
    ),
    46: (
        (
            'Circuits',
            'BadName',
            'a name is not 1 to 300 bytes from 32 to 126',
            'choose another name',
        ),
    ),
    50: (
        (
            'What is met most',
            'BadHeader',
            'the file is no AIGER, whose first word is `aag` or `aig`, but BTOR2, or compressed, as with 20',
            '`lower` makes a circuit of a model; decompress as with 20',
        ),
        (
            'What is met most',
            'BadHeader',
            'a carriage return ends the first line, or a byte order mark begins it: `head -n1 FILE | od -c` shows both',
            "`tr -d '\\r' <FILE >NEW` drops the one, `tail -c +4 FILE >NEW` the other; fetch a binary circuit again, unconverted",
        ),
        (
            'Texts of circuits',
            'BadHeader',
            'the first line is not `aag` or `aig` and 5 to 9 decimals, one space apart',
            'write `aag` or `aig` and `M I L O A`, then `B C J F` where not 0',
        ),
    ),
    51: (
        (
            'Texts of circuits',
            'CountsDisagree',
            'M is not I + L + A, in the ascii form is below it',
            'correct M; check that no line is missing',
        ),
    ),
    52: (
        (
            'Texts of circuits',
            'BadNumber',
            'an input is no decimal that defines a new variable up to M; another line is no decimal up to 2M + 1, of justice sizes no decimal; an ascii gate is not three decimals, the last two up to 2M + 1',
            'write one number a line; name variables up to M',
        ),
    ),
    53: (
        (
            'Texts of circuits',
            'BadLatch',
            'a latch is not two or three decimals (binary: one or two); its literal defines no new variable; its next is above 2M + 1; or its reset is not 0, 1 or its own literal',
            'write it as FORMATS has it; where its first bit is another literal, use a latch that is 1 in the first frame alone, as with 11',
        ),
    ),
    54: (
        (
            'Texts of circuits',
            'GateOrder',
            "an ascii gate's literal defines no new variable; a binary first delta is 0 or above the gate's literal, or a second is above its first operand",
            'define each variable once',
        ),
    ),
    55: (
        (
            'Texts of circuits',
            'DeltaNotShortest',
            'a delta of more than one byte ends in byte 0',
            'write deltas in the fewest bytes',
        ),
    ),
    56: (
        (
            'Texts of circuits',
            'DeltaTooLong',
            "a delta's first five bytes all have the top bit",
            'fetch the whole file',
        ),
    ),
    57: (
        (
            'Texts of circuits',
            'BadSymbol',
            "a line behind the gates is neither `c` nor an existing position's first name, of 1 to 300 bytes from 32 to 126",
            "name each position once: `<letter><position> <name>`; for ABC's comment on the line `c` use `&w -n`, or `write_aiger` without `-u`; cut longer names, or drop all (Yosys: `write_aiger` without `-symbols`)",
        ),
    ),
    58: (
        (
            'What is met most',
            'Truncated',
            "the last line has no line feed, or the file is cut, as with 28; ABC's `write_aiger -u` ends so, with `c`",
            '`echo >>FILE` if it is whole, else fetch it again; decompress as with 20; in ABC `write_aiger` without `-u`',
        ),
        (
            'Texts of circuits',
            'Truncated',
            'a line has no line feed, or a line or a delta is missing',
            'fetch the whole file; end each line with a line feed',
        ),
    ),
    59: (
        (
            'Texts of circuits',
            'TooBig',
            'a header number, or the sum of justice sizes, is above 2^30',
            'make one circuit per bad property, of only what it and the constraints need; check the header',
        ),
    ),
    60: (
        (
            'Texts of circuits',
            'Device',
            'reading failed',
            'name a readable file',
        ),
    ),
    61: (
        (
            'Texts of circuits',
            'NoMemory',
            'out of memory',
            'add memory',
        ),
    ),
    62: (
        (
            'Circuits',
            'Cycle',
            '`Loose::number`: a gate depends on itself; the first that does, or depends on one that does, is named, from 0',
            'mend what made it: a latch in the cycle makes another circuit',
        ),
        (
            'Texts of circuits',
            'Cycle',
            'an ascii gate depends on itself, or on one that does',
            'mend what made it: a latch in the cycle makes another circuit; in Yosys `check` tells where a design has one',
        ),
    ),
    63: (
        (
            'Circuits',
            'Undefined',
            '`Loose::number`: a line uses a variable neither 0 nor defined; the first is named, counted from 0 from the latches to the gates, without justice sizes',
            'define the variable: dropping the line changes the circuit',
        ),
        (
            'Texts of circuits',
            'Undefined',
            'an ascii line uses a variable neither 0 nor defined',
            'define the variable: dropping the line changes the circuit',
        ),
    ),
    70: (
        (
            'Runs and judges',
            'NoNext',
            'a state has an `init` and no `next`; the first in the file is named',
            '`hwtool fit FILE >NEW` takes it; or give the state an input of its own as its next: any word from the second frame on, as without a next; itself only if it is to keep its word',
        ),
        (
            'Witnesses of wide models',
            'NoNext',
            'a state has an `init` and no `next`; the first in the file is named',
            '`hwtool fit FILE >NEW` takes it; or give the state an input of its own as its next: any word from the second frame on, as without a next; itself only if it is to keep its word',
        ),
        (
            'Dumps',
            'NoNext',
            'a state has an `init` and no `next`; the first in the file is named',
            '`hwtool fit FILE >NEW` takes it; or give the state an input of its own as its next: any word from the second frame on, as without a next; itself only if it is to keep its word',
        ),
    ),
    71: (
        (
            'Runs and judges',
            'NoMemory',
            'out of memory for a run; a judge tells 101',
            'add memory',
        ),
    ),
    80: (
        (
            'Gate makers',
            'TooBig',
            "a gate's variable would be above 2^30; from a builder only where variables so far plus its bound are more",
            'make one circuit per bad property, of only what it and the constraints need',
        ),
    ),
    81: (
        (
            'Gate makers',
            'NoMemory',
            'out of memory',
            'add memory',
        ),
    ),
    90: (
        (
            'Lowering',
            'Justice',
            'a justice line comes first in the file of what 90 to 92 refuse',
            'take the line out: no bad property needs it; the justice property is then unchecked',
        ),
    ),
    91: (
        (
            'Lowering',
            'Fair',
            'a fairness line comes first in the file of what 90 to 92 refuse',
            'take the line out: only justice properties need it',
        ),
    ),
    92: (
        (
            'Lowering',
            'NoNext',
            'a state with an `init` and no `next` comes first in the file of what 90 to 92 refuse',
            '`hwtool fit FILE >NEW` takes it; or give the state an input of its own as its next: any word from the second frame on, as without a next; itself only if it is to keep its word',
        ),
    ),
    93: (
        (
            'Lowering',
            'TooBig',
            "the bound on the circuit's variables, which `hwtool cost` tells, is above 2^30 (1,073,741,824)",
            'write one model per bad property, of only what it and the constraints need',
        ),
    ),
    94: (
        (
            'Lowering',
            'NoMemory',
            'out of memory',
            'add memory',
        ),
    ),
    95: (
        (
            'Lowering',
            'Read',
            "the text is no model, or reading failed; that fault's line is printed",
            'see the texts of models',
        ),
    ),
    96: (
        (
            'Lowering',
            'Lower',
            'the model is not lowered; the reason is printed',
            'see 90 to 94',
        ),
    ),
    97: (
        (
            'Lowering',
            'Write',
            'writing failed, perhaps after a beginning',
            'make room; keep the output open',
        ),
    ),
    100: (
        (
            'Runs and judges',
            'Device',
            'reading failed',
            'name a readable file',
        ),
    ),
    101: (
        (
            'Runs and judges',
            'NoMemory',
            'out of memory',
            'add memory',
        ),
    ),
    110: (
        (
            'What is met most',
            'BadHeader',
            "a witness of the other format (a circuit's begins with `1`, a model's with `sat`), or the wrong file",
            "`check-aig` and `lift` take a circuit's, `check-btor` a model's",
        ),
        (
            'What is met most',
            'BadHeader',
            'a carriage return ends the first line, or a byte order mark begins it: `head -n1 FILE | od -c` shows both',
            "`tr -d '\\r' <FILE >NEW` drops the one, `tail -c +4 FILE >NEW` the other",
        ),
        (
            'Witnesses',
            'BadHeader',
            'the first line that is no comment is not `sat`, `unsat` or `unknown`',
            'begin with `sat`; only `;` comments stand before it',
        ),
        (
            'Witnesses of circuits',
            'BadHeader',
            'the first line is not `1`, `0` or `2`',
            'begin with `1`',
        ),
    ),
    111: (
        (
            'Witnesses',
            'BadClaim',
            'the claims are no list of `b<i>` or `j<i>`, one space apart',
            'write `b0`, or `b0 b2`; `tidy-witness` drops blanks and carriage returns at line ends',
        ),
        (
            'Witnesses',
            'BadClaim',
            'a claim names no bad property of the model, or stands twice',
            'count bad properties in file order, from 0; name each once',
        ),
        (
            'Witnesses of circuits',
            'BadClaim',
            'the second line is no `b<i>` of an existing bad property',
            'name one bad property, counted from 0; `tidy-witness` drops blanks at line ends',
        ),
    ),
    112: (
        (
            'What is met most',
            'JusticeClaim',
            'the claim is `j<i>`, a justice property (liveness)',
            'claim bad properties only',
        ),
        (
            'Witnesses',
            'JusticeClaim',
            'a justice property is claimed',
            'claim bad properties only',
        ),
        (
            'Witnesses of circuits',
            'JusticeClaim',
            'the second line is `j<i>`',
            'claim bad properties only',
        ),
    ),
    113: (
        (
            'Witnesses',
            'FrameOrder',
            "neither `#0` nor `@0` follows the claims; or a later line that begins with `#`, `@` or `.` is neither the next frame's nor, behind a frame, the end nor there, with a free state, `#` and the next frame's number",
            'write `#0` at most once, then `@0`, `@1` and so on without gaps; words of free states stand behind `#k`, before `@k`; `tidy-witness` drops comments, empty lines and carriage returns',
        ),
        (
            'Witnesses of circuits',
            'FrameOrder',
            "`.` stands in the first frame's place",
            'write a line of input bits per frame, at least one',
        ),
    ),
    114: (
        (
            'Witnesses',
            'BadIndex',
            "an assignment's index is no decimal of a state (behind `#0`), a free state (behind a later `#k`) or an input (behind `@k`)",
            'count all states, or inputs, in file order from 0; `tidy-witness` drops comments and empty lines, also told so',
        ),
    ),
    115: (
        (
            'Witnesses',
            'IndexTwice',
            'the index stands earlier in this part',
            'drop one; if they differ, see which is meant',
        ),
    ),
    116: (
        (
            'Witnesses',
            'BadValue',
            'the value is missing, not of the width, or has a byte other than `0`, `1` and `x`',
            'write all binary digits, highest first, behind one space; `tidy-witness` drops carriage returns',
        ),
        (
            'Witnesses of circuits',
            'BadValue',
            'a line has not one bit per latch, or input, or has a byte other than `0`, `1` and `x`',
            'write a bit for each, in order, without spaces; `tidy-witness` drops carriage returns, and empty lines that are no frames',
        ),
    ),
    117: (
        (
            'What is met most',
            'Undetermined',
            'a value has an `x`, a bit left open',
            "`hwtool tidy-witness FILE` puts `0`, and what is then accepted is a counterexample; put the initial value's bit, or the one that the tool meant",
        ),
        (
            'Witnesses',
            'Undetermined',
            'the value has an `x`',
            "choose 0 or 1, for a first state with an init the init's bit; `tidy-witness` puts 0",
        ),
        (
            'Witnesses of circuits',
            'Undetermined',
            'a bit of a line is `x`',
            'choose 0 or 1, for a latch with a reset, in the first line, its reset; `tidy-witness` puts 0',
        ),
    ),
    118: (
        (
            'What is met most',
            'Truncated',
            'the last line has no line feed, or the file is cut, as with 28',
            '`echo >>FILE` if it is whole, else fetch it again; decompress as with 20',
        ),
        (
            'Witnesses',
            'Truncated',
            'the text ends before the line `.` or its line feed',
            'fetch the whole file',
        ),
    ),
    119: (
        (
            'What is met most',
            'Trailing',
            'several witnesses in one file, or a note behind the first',
            '`hwtool tidy-witness FILE` keeps the first witness, with `--pick N` the N-th',
        ),
        (
            'Witnesses',
            'Trailing',
            'something follows the line `.`',
            '`tidy-witness` keeps the first witness, with `--pick N` the N-th',
        ),
    ),
    120: (
        (
            'Witnesses',
            'TooLong',
            'it is line 2^62 + 1 and has a byte',
            'shorten the witness',
        ),
    ),
    121: (
        (
            'Witnesses',
            'BadSymbol',
            'behind the value stands no name of 1 to 255 bytes from 33 to 126, the first not `;`',
            'drop the name, or write it as one token',
        ),
    ),
    130: (
        (
            'Lifting',
            'Read',
            'reading the witness failed, perhaps after a beginning was written',
            'name a readable file',
        ),
    ),
    131: (
        (
            'Lifting',
            'Write',
            'writing failed, perhaps after a beginning',
            'make room; keep the output open',
        ),
    ),
    132: (
        (
            'Lifting',
            'NoMemory',
            'out of memory, before anything was read or written',
            'add memory',
        ),
    ),
    136: (
        (
            'Witnesses of wide models',
            'Read',
            'reading the witness failed, perhaps after a beginning was written',
            'name a readable file',
        ),
    ),
    137: (
        (
            'Witnesses of wide models',
            'Write',
            'writing failed, perhaps after a beginning',
            'make room; keep the output open',
        ),
    ),
    138: (
        (
            'Witnesses of wide models',
            'NoMemory',
            'out of memory, perhaps after a beginning was written',
            'add memory',
        ),
    ),
    140: (
        (
            'Engine forms',
            'Justice',
            'the circuit has a justice property; position 0 is meant',
            'take justice properties out: no bad property needs them; to check one, translate liveness into safety, which `hwtool` does not',
        ),
    ),
    141: (
        (
            'Engine forms',
            'Fair',
            'the circuit has a fairness constraint; position 0 is meant',
            'take fairness constraints out: only justice properties need them',
        ),
    ),
    142: (
        (
            'Engine forms',
            'NoSuchBad',
            'there is no bad property at the chosen position, or of the name',
            "count bad properties from 0; the last line of `hwtool show` counts a model's, B in the header a circuit's",
        ),
    ),
    143: (
        (
            'Engine forms',
            'TooBig',
            "the form's inputs, latches and bound on gates sum to more than 2^30",
            'make one circuit per bad property, of only what it and the constraints need',
        ),
    ),
    144: (
        (
            'Engine forms',
            'NoMemory',
            'out of memory',
            'add memory',
        ),
    ),
    145: (
        (
            'Engine forms',
            'NoBad',
            'there is no bad property',
            'circuits from before AIGER 1.9 or from ABC have outputs as properties: `aig-convert --outputs` makes each a bad one; in a model write a `bad` line; of an empty or cut file, see whether its writer failed',
        ),
    ),
    150: (
        (
            'Counterexamples over engine forms',
            'NoFrame',
            'the text ends before a frame',
            'fetch the whole file; in ABC use `write_cex -a`',
        ),
    ),
    151: (
        (
            'Counterexamples over engine forms',
            'InitialOne',
            'an initial bit is 1',
            "in ABC use `write_cex -a`, a line per frame; let engines begin the form's latches with 0",
        ),
    ),
    152: (
        (
            'Counterexamples over engine forms',
            'NoBit',
            'a byte is no bit',
            'write `0` and `1` alone, and `#` before anything else',
        ),
    ),
    153: (
        (
            'Counterexamples over engine forms',
            'WrongLength',
            'a frame has not one bit per input of the form',
            'take the text of this form: same circuit or model, same `--bad`',
        ),
    ),
    154: (
        (
            'Counterexamples over engine forms',
            'NoMemory',
            'out of memory',
            'add memory',
        ),
    ),
    155: (
        (
            'Counterexamples over engine forms',
            'Device',
            'reading failed',
            'name a readable file',
        ),
    ),
    156: (
        (
            'Counterexamples over engine forms',
            'Write',
            'writing failed',
            'make room; keep the output open',
        ),
    ),
    160: (
        (
            'Formulas and proofs',
            'NoMemory',
            'out of memory for a judge of proofs',
            'add memory',
        ),
    ),
    161: (
        (
            'Formulas and proofs',
            'BadWord',
            'a word is no literal, no `0` ending a step, no `d` beginning one',
            'check that the file is a whole DRAT proof, text or binary',
        ),
    ),
    162: (
        (
            'Formulas and proofs',
            'BadVariable',
            "a literal's variable is none of the formula's: another formula's, or one that the solver made",
            'take the proof of this formula; let the solver make no variables: `--no-factor` in Kissat, and in CaDiCaL where it has that option, `--bva 0` in CryptoMiniSat; no extended resolution',
        ),
    ),
    163: (
        (
            'Formulas and proofs',
            'CutOff',
            'the text ends within a step',
            'fetch the whole file',
        ),
    ),
    164: (
        (
            'Formulas and proofs',
            'TooLong',
            'there are more than 2^62 lines',
            'shorten the proof',
        ),
    ),
    165: (
        (
            'Formulas and proofs',
            'BadLiteral',
            "a clause's literal is of none of the formula's variables",
            "count the formula's variables anew",
        ),
    ),
    166: (
        (
            'Formulas and proofs',
            'NoMemory',
            'out of memory for a formula',
            'add memory',
        ),
    ),
    167: (
        (
            'Formulas and proofs',
            'BadId',
            'a step with hints has an id that is not above those before',
            'number the clauses in their order, those of the formula from 1',
        ),
    ),
    168: (
        (
            'Formulas and proofs',
            'NoClause',
            'a hint names a clause that does not stand',
            'name clauses that were given and not taken away',
        ),
    ),
    169: (
        (
            'Formulas and proofs',
            'RatStep',
            'a hint has a minus: the step is one by resolution on a literal (RAT), which has no meaning here',
            'ask for a proof without such steps: `cadical --lrat` without options that make them; or take one without hints',
        ),
    ),
    170: (
        (
            'Dumps',
            'Read',
            'reading failed; a beginning was written',
            'name a readable file',
        ),
    ),
    171: (
        (
            'Dumps',
            'Write',
            'writing failed; a beginning was written',
            'make room; keep the output open',
        ),
    ),
    172: (
        (
            'Dumps',
            'NoMemory',
            'out of memory; nothing was read or written',
            'add memory',
        ),
    ),
    180: (
        (
            'Invariants and certificates',
            'BadInputs',
            "the latch count's line is not `.i` and a decimal",
            'take what ABC writes by `pdr -d -I`',
        ),
    ),
    181: (
        (
            'Invariants and certificates',
            'BadOutputs',
            'the line behind it is not `.o 1`',
            'take what ABC writes by `pdr -d -I`',
        ),
    ),
    182: (
        (
            'Invariants and certificates',
            'BadCount',
            "the cube count's line is not `.p` and a decimal",
            'take what ABC writes by `pdr -d -I`',
        ),
    ),
    183: (
        (
            'Invariants and certificates',
            'BadNames',
            "the names' line is not `.ilb` and names, each `lo` and digits",
            'let ABC read the binary engine form, which has no names',
        ),
    ),
    184: (
        (
            'Invariants and certificates',
            'NoSuchLatch',
            'a name is of no latch of the engine form',
            'take the invariant of this model and bad property',
        ),
    ),
    185: (
        (
            'Invariants and certificates',
            'NamedTwice',
            'a latch is named twice',
            'name each latch once',
        ),
    ),
    186: (
        (
            'Invariants and certificates',
            'WrongNames',
            'the number of names is not the latch count',
            'fetch the whole file',
        ),
    ),
    187: (
        (
            'Invariants and certificates',
            'BadOutput',
            "the output name's line is not `.ob`, a blank and a word, which may be empty",
            'take what ABC writes by `pdr -d -I`',
        ),
    ),
    188: (
        (
            'Invariants and certificates',
            'BadCube',
            "a cube's line is not bytes `0`, `1` and `-`, a blank and `1`",
            'take what ABC writes by `pdr -d -I`',
        ),
    ),
    189: (
        (
            'Invariants and certificates',
            'WrongLength',
            "a cube's length is not the latch count",
            'fetch the whole file',
        ),
    ),
    190: (
        (
            'Invariants and certificates',
            'HoldsAtStart',
            'a cube has no `1`, so the first state, all 0, is in it',
            "it is no invariant of an engine form: take what ABC's `pdr -d -I` writes over this property's form once that is proved",
        ),
    ),
    191: (
        (
            'Invariants and certificates',
            'WrongCubes',
            'the number of cubes is not the cube count',
            'fetch the whole file',
        ),
    ),
    192: (
        (
            'Invariants and certificates',
            'BehindEnd',
            'a line follows the end',
            'cut the file behind `.e`',
        ),
    ),
    193: (
        (
            'Invariants and certificates',
            'CutOff',
            'the text ends before `.e`',
            'fetch the whole file',
        ),
    ),
    194: (
        (
            'Invariants and certificates',
            'NoMemory',
            'out of memory for an invariant',
            'add memory',
        ),
    ),
    195: (
        (
            'Invariants and certificates',
            'Device',
            'reading the invariant failed',
            'name a readable file',
        ),
    ),
    196: (
        (
            'Invariants and certificates',
            'TooBig',
            "the engine form's variables and the cubes sum to more than 2^31 - 4",
            'take an invariant of fewer cubes',
        ),
    ),
    197: (
        (
            'Invariants and certificates',
            'NoMemory',
            'out of memory for an obligation',
            'add memory',
        ),
    ),
    198: (
        (
            'Invariants and certificates',
            'Device',
            'reading the proof failed',
            'name a readable file',
        ),
    ),
    200: (
        (
            'Tidied witnesses',
            'Read',
            'reading failed; a beginning was written',
            'name a readable file',
        ),
    ),
    201: (
        (
            'Tidied witnesses',
            'Write',
            'writing failed; a beginning was written',
            'make room; keep the output open',
        ),
    ),
    210: (
        (
            'Witness circuits',
            'Justice',
            'it has a justice property',
            'take justice properties out: it is about its one property alone',
        ),
    ),
    211: (
        (
            'Witness circuits',
            'Fair',
            'it has a fairness constraint',
            'take fairness constraints out: only justice properties need them',
        ),
    ),
    212: (
        (
            'Witness circuits',
            'NoProperty',
            'it has neither a bad property nor an output',
            'check that the file is a whole witness circuit',
        ),
    ),
    213: (
        (
            'Witness circuits',
            'SeveralProperties',
            'it has several bad properties, or none and several outputs',
            'write it with one bad property, the disjunction of them',
        ),
    ),
    214: (
        (
            'Witness circuits',
            'NoSuchLiteral',
            'a name `= N` of an input or latch says no literal of the circuit',
            "take this circuit's witness circuit, with its literals' numbers",
        ),
    ),
    215: (
        (
            'Witness circuits',
            'NoSuchBad',
            'the circuit has no bad property of this number',
            "count bad properties from 0; the last line of `hwtool show` counts a model's, B in the header a circuit's",
        ),
    ),
    216: (
        (
            'Witness circuits',
            'TooBig',
            "the test's inputs and bound on gates sum to more than 2^30",
            'make one circuit per bad property, of only what it and the constraints need, for both circuits',
        ),
    ),
    217: (
        (
            'Witness circuits',
            'NoMemory',
            'out of memory for a test',
            'add memory',
        ),
    ),
    220: (
        (
            'Fitting',
            'Justice',
            'of a model that has to be fitted a justice line comes first in the file of what 220 to 222 refuse',
            'take the line out: no bad property needs it; the justice property is then unchecked',
        ),
    ),
    221: (
        (
            'Fitting',
            'Fair',
            'of such a model a fairness line comes first of these',
            'take the line out: only justice properties need it',
        ),
    ),
    222: (
        (
            'Fitting',
            'TooManyItems',
            'with what is made for this item the fitted model would have more than 1,048,576 items: a division takes some ten for each bit of its words, and more as they grow',
            'write one model per bad property, of only what it and the constraints need',
        ),
        (
            'Fitting',
            'TooManyItems',
            'no item is told: so it is with what is made of arrays, of operands with a minus and of inits by lines; a write takes some six items for each cell',
            'make the memory smaller, or write one model per bad property, of only what it and the constraints need',
        ),
    ),
    223: (
        (
            'Fitting',
            'NoMemory',
            'out of memory',
            'add memory',
        ),
    ),
    224: (
        (
            'Fitting',
            'InitCircle',
            "the word that this line has in the first frame needs itself: a state's init names what the state is needed for",
            'give one of the states on the circle an init that does not lead back to it, or none',
        ),
    ),
}
