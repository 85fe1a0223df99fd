//! `wave [--all] MODEL WITNESS` in plain Rust: a witness is judged over a model as it streams past, its frames are written
//! as a value change dump, and its judgement goes to standard error. It takes what is well formed alone, and looks for no
//! fault. `waves.py` times it beside ours.

use std::collections::{HashMap, HashSet};
use std::fs::File;
use std::io::{self, BufWriter, Read, Write};
use std::{env, fs};

/// A node's rule: its operands are places of words.
enum Rule {
    Leaf,
    Unary(String, usize),
    Binary(String, usize, usize),
    Ite(usize, usize, usize),
    Slice(usize, u32),
    Extend(bool, usize),
    Concat(usize, usize),
}

/// An operator, resolved to a number for the loop.
#[derive(Clone, Copy)]
enum Op {
    Not, Inc, Dec, Neg, Redand, Redor, Redxor, Iff, Implies, Eq, Neq, Ugt, Ugte, Ult, Ulte, Sgt, Sgte, Slt, Slte,
    And, Nand, Or, Nor, Xor, Xnor, Rol, Ror, Sll, Srl, Sra, Add, Sub, Mul, Udiv, Urem, Sdiv, Srem, Smod,
    Uaddo, Usubo, Umulo, Saddo, Ssubo, Smulo, Sdivo, Ite, Slice, Uext, Sext, Concat,
}

/// A step of a frame: the word at `to` is that of an operator over others.
struct Step {
    op: Op,
    to: u32,
    a: u32,
    b: u32,
    c: u32,
    /// The width of the first operand, and of the result.
    width: u32,
    own: u32,
}

/// A line of the model that is shown.
struct Signal {
    scope: usize,
    place: usize,
    width: u32,
    code: String,
    name: String,
}

struct State {
    place: usize,
    init: Option<u64>,
    next: Option<usize>,
}

struct Machine {
    words: Vec<u64>,
    steps: Vec<Step>,
    inputs: Vec<(usize, u32)>,
    states: Vec<State>,
    bads: Vec<usize>,
    constraints: Vec<usize>,
    signals: Vec<Signal>,
}

const SCOPES: [&str; 6] = ["inputs", "states", "bad", "constraints", "outputs", "nodes"];

fn top(n: u32) -> u64 {
    if n == 64 { u64::MAX } else { (1 << n) - 1 }
}

fn signed(n: u32, x: u64) -> i128 {
    if x >> (n - 1) & 1 == 1 { i128::from(x) - (1i128 << n) } else { i128::from(x) }
}

fn op_of(name: &str) -> Op {
    match name {
        "not" => Op::Not, "inc" => Op::Inc, "dec" => Op::Dec, "neg" => Op::Neg, "redand" => Op::Redand,
        "redor" => Op::Redor, "redxor" => Op::Redxor, "iff" => Op::Iff, "implies" => Op::Implies, "eq" => Op::Eq,
        "neq" => Op::Neq, "ugt" => Op::Ugt, "ugte" => Op::Ugte, "ult" => Op::Ult, "ulte" => Op::Ulte, "sgt" => Op::Sgt,
        "sgte" => Op::Sgte, "slt" => Op::Slt, "slte" => Op::Slte, "and" => Op::And, "nand" => Op::Nand, "or" => Op::Or,
        "nor" => Op::Nor, "xor" => Op::Xor, "xnor" => Op::Xnor, "rol" => Op::Rol, "ror" => Op::Ror, "sll" => Op::Sll,
        "srl" => Op::Srl, "sra" => Op::Sra, "add" => Op::Add, "sub" => Op::Sub, "mul" => Op::Mul, "udiv" => Op::Udiv,
        "urem" => Op::Urem, "sdiv" => Op::Sdiv, "srem" => Op::Srem, "smod" => Op::Smod, "uaddo" => Op::Uaddo,
        "usubo" => Op::Usubo, "umulo" => Op::Umulo, "saddo" => Op::Saddo, "ssubo" => Op::Ssubo, "smulo" => Op::Smulo,
        "sdivo" => Op::Sdivo, other => panic!("no operator: {other}"),
    }
}

fn overflows(n: u32, x: i128) -> u64 {
    u64::from(x < -(1i128 << (n - 1)) || x > (1i128 << (n - 1)) - 1)
}

fn evaluate(step: &Step, words: &[u64]) -> u64 {
    let n = step.width;
    let a = words[step.a as usize];
    let b = words[step.b as usize];
    let all = top(n);
    match step.op {
        Op::Not => !a & all,
        Op::Inc => a.wrapping_add(1) & all,
        Op::Dec => a.wrapping_sub(1) & all,
        Op::Neg => a.wrapping_neg() & all,
        Op::Redand => u64::from(a == all),
        Op::Redor => u64::from(a != 0),
        Op::Redxor => u64::from(a.count_ones() % 2 == 1),
        Op::Iff | Op::Eq => u64::from(a == b),
        Op::Implies => u64::from(a == 0 || b == 1),
        Op::Neq => u64::from(a != b),
        Op::Ugt => u64::from(a > b),
        Op::Ugte => u64::from(a >= b),
        Op::Ult => u64::from(a < b),
        Op::Ulte => u64::from(a <= b),
        Op::Sgt => u64::from(signed(n, a) > signed(n, b)),
        Op::Sgte => u64::from(signed(n, a) >= signed(n, b)),
        Op::Slt => u64::from(signed(n, a) < signed(n, b)),
        Op::Slte => u64::from(signed(n, a) <= signed(n, b)),
        Op::And => a & b,
        Op::Nand => !(a & b) & all,
        Op::Or => a | b,
        Op::Nor => !(a | b) & all,
        Op::Xor => a ^ b,
        Op::Xnor => !(a ^ b) & all,
        Op::Rol => {
            let k = (b % u64::from(n)) as u32;
            if k == 0 { a } else { (a << k | a >> (n - k)) & all }
        }
        Op::Ror => {
            let k = (b % u64::from(n)) as u32;
            if k == 0 { a } else { (a >> k | a << (n - k)) & all }
        }
        Op::Sll => if b < u64::from(n) { a << b & all } else { 0 },
        Op::Srl => if b < u64::from(n) { a >> b } else { 0 },
        Op::Sra => (signed(n, a) >> b.min(u64::from(n))) as u64 & all,
        Op::Add => a.wrapping_add(b) & all,
        Op::Sub => a.wrapping_sub(b) & all,
        Op::Mul => a.wrapping_mul(b) & all,
        Op::Udiv => a.checked_div(b).unwrap_or(all),
        Op::Urem => a.checked_rem(b).unwrap_or(a),
        Op::Sdiv => match signed(n, a).checked_div(signed(n, b)) {
            Some(q) => q as u64 & all,
            None => if signed(n, a) < 0 { 1 } else { all },
        },
        Op::Srem => signed(n, a).checked_rem(signed(n, b)).map_or(a, |r| r as u64 & all),
        Op::Smod => {
            let (s, t) = (signed(n, a), signed(n, b));
            if t == 0 { a } else { (((s % t) + t) % t) as u64 & all }
        }
        Op::Uaddo => u64::from(u128::from(a) + u128::from(b) > u128::from(all)),
        Op::Usubo => u64::from(a < b),
        Op::Umulo => u64::from(u128::from(a) * u128::from(b) > u128::from(all)),
        Op::Saddo => overflows(n, signed(n, a) + signed(n, b)),
        Op::Ssubo => overflows(n, signed(n, a) - signed(n, b)),
        Op::Smulo => overflows(n, signed(n, a) * signed(n, b)),
        Op::Sdivo => u64::from(signed(n, a) == -(1i128 << (n - 1)) && signed(n, b) == -1),
        Op::Ite => if a == 1 { b } else { words[step.c as usize] },
        Op::Slice => a >> step.c & top(step.own),
        Op::Uext => a,
        Op::Sext => signed(n, a) as u64 & top(step.own),
        Op::Concat => a << step.c | b,
    }
}

/// Whether the words of a symbol may stand bare in a dump.
fn is_plain(name: &str) -> bool {
    let bytes = name.as_bytes();
    (bytes[0].is_ascii_alphabetic() || bytes[0] == b'_')
        && bytes.iter().all(|b| b.is_ascii_alphanumeric() || *b == b'_' || *b == b'.')
}

fn constant(form: &str, tokens: &[&str], n: u32) -> u64 {
    match form {
        "zero" => 0,
        "one" => 1,
        "ones" => top(n),
        "const" => u64::from_str_radix(tokens[3], 2).unwrap(),
        "consth" => u64::from_str_radix(tokens[3], 16).unwrap(),
        _ => tokens[3].parse::<i128>().unwrap() as u64 & top(n),
    }
}

fn read_model(text: &str, all: bool) -> Machine {
    let mut machine = Machine {
        words: Vec::new(), steps: Vec::new(), inputs: Vec::new(), states: Vec::new(), bads: Vec::new(),
        constraints: Vec::new(), signals: Vec::new(),
    };
    let mut sorts: HashMap<u64, u32> = HashMap::new();
    let mut places: HashMap<u64, usize> = HashMap::new();
    let mut widths: Vec<u32> = Vec::new();
    let mut state_at: HashMap<u64, usize> = HashMap::new();
    let mut names: HashSet<(usize, String)> = HashSet::new();
    for line in text.lines() {
        let line = line.split(';').next().unwrap();
        let tokens: Vec<&str> = line.split_ascii_whitespace().collect();
        if tokens.is_empty() {
            continue;
        }
        let id: u64 = tokens[0].parse().unwrap();
        let form = tokens[1];
        let number = |k: usize| -> u64 { tokens[k].parse().unwrap() };
        let node = |k: usize| -> usize { places[&number(k)] };
        let mut rule = None;
        let mut shown = None;
        let behind;
        match form {
            "sort" => {
                sorts.insert(id, number(3) as u32);
                continue;
            }
            "init" => {
                let state = state_at[&number(3)];
                machine.states[state].init = Some(machine.words[node(4)]);
                continue;
            }
            "next" => {
                let state = state_at[&number(3)];
                machine.states[state].next = Some(node(4));
                continue;
            }
            "bad" | "constraint" | "output" => {
                let place = node(2);
                match form {
                    "bad" => machine.bads.push(place),
                    "constraint" => machine.constraints.push(place),
                    _ => {}
                }
                shown = Some(place);
                behind = 3;
            }
            "input" | "state" | "zero" | "one" | "ones" => {
                rule = Some(Rule::Leaf);
                behind = 3;
            }
            "const" | "constd" | "consth" => {
                rule = Some(Rule::Leaf);
                behind = 4;
            }
            "slice" => {
                rule = Some(Rule::Slice(node(3), number(5) as u32));
                behind = 6;
            }
            "uext" | "sext" => {
                rule = Some(Rule::Extend(form == "sext", node(3)));
                behind = 5;
            }
            "ite" => {
                rule = Some(Rule::Ite(node(3), node(4), node(5)));
                behind = 6;
            }
            "concat" => {
                rule = Some(Rule::Concat(node(3), node(4)));
                behind = 5;
            }
            "not" | "inc" | "dec" | "neg" | "redand" | "redor" | "redxor" => {
                rule = Some(Rule::Unary(form.to_string(), node(3)));
                behind = 4;
            }
            _ => {
                rule = Some(Rule::Binary(form.to_string(), node(3), node(4)));
                behind = 5;
            }
        }
        let symbol = tokens.get(behind).copied();
        let mut scope = match form {
            "input" => 0,
            "state" => 1,
            "bad" => 2,
            "constraint" => 3,
            _ => 4,
        };
        if let Some(rule) = rule {
            let own = sorts[&number(2)];
            let place = machine.words.len();
            places.insert(id, place);
            widths.push(own);
            let word = match form {
                "input" => {
                    machine.inputs.push((place, own));
                    0
                }
                "state" => {
                    state_at.insert(id, machine.states.len());
                    machine.states.push(State { place, init: None, next: None });
                    0
                }
                "zero" | "one" | "ones" | "const" | "constd" | "consth" => constant(form, &tokens, own),
                _ => 0,
            };
            machine.words.push(word);
            let width = |p: usize| widths[p];
            let step = |op, a: usize, b: usize, c: usize| Step {
                op, to: place as u32, a: a as u32, b: b as u32, c: c as u32, width: width(a), own,
            };
            match rule {
                Rule::Leaf => {}
                Rule::Unary(name, a) => machine.steps.push(step(op_of(&name), a, a, a)),
                Rule::Binary(name, a, b) => machine.steps.push(step(op_of(&name), a, b, a)),
                Rule::Ite(c, t, e) => machine.steps.push(step(Op::Ite, c, t, e)),
                Rule::Slice(a, low) => {
                    let mut one = step(Op::Slice, a, a, a);
                    one.c = low;
                    machine.steps.push(one);
                }
                Rule::Extend(sign, a) => machine.steps.push(step(if sign { Op::Sext } else { Op::Uext }, a, a, a)),
                Rule::Concat(a, b) => {
                    let mut one = step(Op::Concat, a, b, a);
                    one.c = width(b);
                    machine.steps.push(one);
                }
            }
            if scope == 4 {
                scope = 5;
            }
            shown = Some(place);
        }
        if scope == 5 && !all && symbol.is_none() {
            continue;
        }
        let place = shown.unwrap();
        let own = match symbol {
            Some(symbol) => symbol.to_string(),
            None if scope == 2 => (machine.bads.len() - 1).to_string(),
            None if scope == 3 => (machine.constraints.len() - 1).to_string(),
            None => format!("n{id}"),
        };
        let mut name = match scope {
            2 => format!("bad:{own}"),
            3 => format!("constraint:{own}"),
            _ => own,
        };
        let ends_in_a_number = name.trim_end_matches(|end: char| end.is_ascii_digit()).ends_with('#');
        if ends_in_a_number || !names.insert((scope, name.clone())) {
            name = format!("{name}#{id}");
        }
        if !is_plain(&name) {
            name.insert(0, '\\');
        }
        machine.signals.push(Signal { scope, place, width: widths[place], code: format!("n{id}"), name });
    }
    machine.signals.sort_by_key(|signal| signal.scope);
    machine
}

/// What is kept of the witness beside the words.
struct Judge {
    frames: u64,
    next: Vec<u64>,
    claims: Vec<usize>,
    risen: Vec<bool>,
    differs: Option<usize>,
    violated: Option<(u64, usize)>,
    shown: Vec<u64>,
}

fn put_word<W: Write>(out: &mut W, signal: &Signal, word: u64) -> io::Result<()> {
    let mut digits = [0u8; 66];
    let width = signal.width as usize;
    if width == 1 {
        digits[0] = b'0' + (word & 1) as u8;
        out.write_all(&digits[..1])?;
    } else {
        digits[0] = b'b';
        for k in 0..width {
            digits[width - k] = b'0' + (word >> k & 1) as u8;
        }
        digits[width + 1] = b' ';
        out.write_all(&digits[..width + 2])?;
    }
    out.write_all(signal.code.as_bytes())?;
    out.write_all(b"\n")
}

/// Settles a frame, judges it, writes what changed, and moves on.
fn close<W: Write>(machine: &mut Machine, judge: &mut Judge, out: &mut W) -> io::Result<()> {
    for step in &machine.steps {
        let word = evaluate(step, &machine.words);
        machine.words[step.to as usize] = word;
    }
    if judge.frames == 0 {
        judge.differs = machine
            .states
            .iter()
            .position(|state| state.init.is_some_and(|init| init != machine.words[state.place]));
    }
    if judge.violated.is_none() {
        if let Some(k) = machine.constraints.iter().position(|place| machine.words[*place] != 1) {
            judge.violated = Some((judge.frames, k));
        }
    }
    for (k, place) in machine.bads.iter().enumerate() {
        judge.risen[k] |= machine.words[*place] == 1;
    }
    writeln!(out, "#{}", judge.frames)?;
    for (k, signal) in machine.signals.iter().enumerate() {
        let word = machine.words[signal.place];
        if judge.frames == 0 || judge.shown[k] != word {
            put_word(out, signal, word)?;
            judge.shown[k] = word;
        }
    }
    judge.frames += 1;
    for (k, state) in machine.states.iter().enumerate() {
        judge.next[k] = state.next.map_or(0, |next| machine.words[next]);
    }
    for (k, state) in machine.states.iter().enumerate() {
        machine.words[state.place] = judge.next[k];
    }
    for (place, _) in &machine.inputs {
        machine.words[*place] = 0;
    }
    Ok(())
}

/// Takes a line behind the claims.
fn take<W: Write>(machine: &mut Machine, judge: &mut Judge, in_states: &mut bool, open: &mut bool, line: &[u8], out: &mut W) -> io::Result<()> {
    match line[0] {
        b'#' => {
            if *open {
                close(machine, judge, out)?;
                *open = false;
            }
            *in_states = true;
        }
        b'@' => {
            if *open {
                close(machine, judge, out)?;
            }
            *open = true;
            *in_states = false;
        }
        b'.' => close(machine, judge, out)?,
        _ => {
            let mut at = 0;
            let mut index = 0usize;
            while line[at] != b' ' {
                index = index * 10 + usize::from(line[at] - b'0');
                at += 1;
            }
            at += 1;
            let mut word = 0u64;
            while at < line.len() && line[at] != b' ' {
                word = word << 1 | u64::from(line[at] & 1);
                at += 1;
            }
            let place = if *in_states {
                machine.states[index].place
            } else {
                machine.inputs[index].0
            };
            machine.words[place] = word;
        }
    }
    Ok(())
}

fn main() -> io::Result<()> {
    let words: Vec<String> = env::args().skip(1).filter(|word| word != "wave").collect();
    let all = words[0] == "--all";
    let files = if all { &words[1..] } else { &words[..] };
    let mut machine = read_model(&fs::read_to_string(&files[0])?, all);
    let mut out = BufWriter::with_capacity(65536, io::stdout().lock());
    writeln!(out, "$comment {} {} $end\n$timescale 1 ns $end", files[0], files[1])?;
    for (scope, name) in SCOPES.iter().enumerate() {
        writeln!(out, "$scope module {name} $end")?;
        for signal in machine.signals.iter().filter(|signal| signal.scope == scope) {
            write!(out, "$var wire {} {} {}", signal.width, signal.code, signal.name)?;
            if signal.width > 1 {
                write!(out, " [{}:0]", signal.width - 1)?;
            }
            writeln!(out, " $end")?;
        }
        writeln!(out, "$upscope $end")?;
    }
    writeln!(out, "$enddefinitions $end")?;
    for state in &machine.states {
        machine.words[state.place] = state.init.unwrap_or(0);
    }
    let mut judge = Judge {
        frames: 0,
        next: vec![0; machine.states.len()],
        claims: Vec::new(),
        risen: vec![false; machine.bads.len()],
        differs: None,
        violated: None,
        shown: vec![0; machine.signals.len()],
    };
    let mut file = File::open(&files[1])?;
    let mut buffer = vec![0u8; 65536];
    let mut rest: Vec<u8> = Vec::new();
    let (mut in_states, mut open, mut header) = (false, false, 0);
    loop {
        let count = file.read(&mut buffer)?;
        if count == 0 {
            break;
        }
        let mut from = 0;
        while let Some(length) = buffer[from..count].iter().position(|b| *b == b'\n') {
            let whole = &buffer[from..from + length];
            let joined;
            let line = if rest.is_empty() {
                whole
            } else {
                rest.extend_from_slice(whole);
                joined = std::mem::take(&mut rest);
                &joined[..]
            };
            from += length + 1;
            if header < 2 {
                if !line.starts_with(b";") {
                    header += 1;
                }
                if header == 2 {
                    let text = std::str::from_utf8(line).unwrap();
                    judge.claims = text.split(' ').map(|claim| claim[1..].parse().unwrap()).collect();
                }
                continue;
            }
            take(&mut machine, &mut judge, &mut in_states, &mut open, line, &mut out)?;
        }
        rest.extend_from_slice(&buffer[from..count]);
    }
    writeln!(out, "#{}", judge.frames)?;
    out.flush()?;
    judge.claims.sort();
    if let Some(state) = judge.differs {
        eprintln!("initial value differs at {state}");
    } else if let Some((frame, constraint)) = judge.violated {
        eprintln!("violated: frame {frame}, constraint {constraint}");
    } else if let Some(claim) = judge.claims.iter().find(|claim| !judge.risen[**claim]) {
        eprintln!("not reached: b{claim}");
    } else {
        eprintln!("accepted {} frames", judge.frames);
    }
    Ok(())
}
