//! `hints CNF DRAT` in plain Rust: finds the hints of a proof without, by forward unit propagation with reasons, and writes the proof
//! in LRAT. It takes what is well formed alone, texts of a solver, and keeps what is the reason of a literal that holds for good.
//! `hints.py` takes it as its finder.

use std::collections::HashMap;
use std::io::{self, BufWriter, Write};
use std::{env, fs};

/// A literal as a place: 2v for variable v, 2v + 1 for its negation.
fn place(literal: i64) -> usize {
    2 * literal.unsigned_abs() as usize + usize::from(literal < 0)
}

struct Checker {
    clauses: HashMap<u64, Vec<i64>>,
    watches: Vec<Vec<u64>>,
    // of each literal whether it is true
    holds: Vec<bool>,
    reasons: Vec<u64>,
    trail: Vec<i64>,
    done: usize,
}

impl Checker {
    fn set(&mut self, literal: i64, reason: u64) {
        self.holds[place(literal)] = true;
        self.reasons[literal.unsigned_abs() as usize] = reason;
        self.trail.push(literal);
    }

    /// Propagates, and answers the clause that is falsified.
    fn propagate(&mut self) -> Option<u64> {
        while self.done < self.trail.len() {
            let negated = -self.trail[self.done];
            self.done += 1;
            let watching = std::mem::take(&mut self.watches[place(negated)]);
            let mut kept = Vec::with_capacity(watching.len());
            let mut falsified = None;
            for (seen, &id) in watching.iter().enumerate() {
                let Some(clause) = self.clauses.get_mut(&id) else { continue };
                if clause[0] == negated {
                    clause.swap(0, 1);
                }
                let other = clause[0];
                if self.holds[place(other)] {
                    kept.push(id);
                    continue;
                }
                let holds = &self.holds;
                if let Some(free) = (2..clause.len()).find(|&it| !holds[place(-clause[it])]) {
                    clause.swap(1, free);
                    self.watches[place(clause[1])].push(id);
                    continue;
                }
                kept.push(id);
                if self.holds[place(-other)] {
                    kept.extend(&watching[seen + 1..]);
                    falsified = Some(id);
                    break;
                }
                self.set(other, id);
            }
            self.watches[place(negated)] = kept;
            if falsified.is_some() {
                return falsified;
            }
        }
        None
    }

    /// Adds a clause, and propagates what it gives for good.
    fn add(&mut self, id: u64, mut clause: Vec<i64>) -> Option<u64> {
        clause.sort_unstable();
        clause.dedup();
        clause.sort_by_key(|&it| self.holds[place(-it)]);
        let open = clause.iter().filter(|&&it| !self.holds[place(-it)]).count();
        let first = clause.first().copied();
        if clause.len() > 1 {
            self.watches[place(clause[0])].push(id);
            self.watches[place(clause[1])].push(id);
        }
        self.clauses.insert(id, clause);
        match (open, first) {
            (0, _) => Some(id),
            (1, Some(literal)) if !self.holds[place(literal)] => {
                self.set(literal, id);
                self.propagate()
            }
            _ => None,
        }
    }

    /// The hints by which a clause is falsified, in the order of propagation.
    fn hints(&self, last: u64) -> Vec<u64> {
        let mut marked = vec![false; self.reasons.len()];
        let mut found = vec![last];
        let mark = |clause: &Vec<i64>, marked: &mut Vec<bool>| clause.iter().for_each(|it| marked[it.unsigned_abs() as usize] = true);
        mark(&self.clauses[&last], &mut marked);
        for &literal in self.trail.iter().rev() {
            let variable = literal.unsigned_abs() as usize;
            if marked[variable] && self.reasons[variable] > 0 {
                found.push(self.reasons[variable]);
                mark(&self.clauses[&self.reasons[variable]], &mut marked);
            }
        }
        found.reverse();
        found
    }

    fn undo(&mut self, length: usize) {
        for literal in self.trail.drain(length..) {
            self.holds[place(literal)] = false;
        }
        self.done = length;
    }
}

fn written(out: &mut impl Write, id: u64, clause: &[i64], hints: &[u64]) -> io::Result<()> {
    write!(out, "{id}")?;
    clause.iter().try_for_each(|it| write!(out, " {it}"))?;
    write!(out, " 0")?;
    hints.iter().try_for_each(|it| write!(out, " {it}"))?;
    writeln!(out, " 0")
}

fn main() -> io::Result<()> {
    let words: Vec<String> = env::args().skip(1).collect();
    let formula = fs::read_to_string(&words[0])?;
    let mut lines = formula.lines().filter(|it| !it.starts_with('c'));
    let variables: usize = lines.next().and_then(|it| it.split(' ').nth(2)).and_then(|it| it.parse().ok()).expect("a header");
    let mut checker = Checker {
        clauses: HashMap::new(),
        watches: vec![Vec::new(); 2 * variables + 2],
        holds: vec![false; 2 * variables + 2],
        reasons: vec![0; variables + 1],
        trail: Vec::new(),
        done: 0,
    };
    let numbers = |line: &str| line.split(' ').filter_map(|it| it.parse().ok()).take_while(|&it| it != 0).collect::<Vec<i64>>();
    let mut by_literals: HashMap<Vec<i64>, Vec<u64>> = HashMap::new();
    let sorted = |clause: &[i64]| { let mut found = clause.to_vec(); found.sort_unstable(); found.dedup(); found };
    let mut out = BufWriter::new(io::stdout().lock());
    let (mut id, mut conflict) = (0, None);
    for line in lines {
        id += 1;
        let clause = numbers(line);
        by_literals.entry(sorted(&clause)).or_default().push(id);
        conflict = conflict.or_else(|| checker.add(id, clause));
    }
    for line in fs::read_to_string(&words[1])?.lines() {
        if let Some(last) = conflict {
            return written(&mut out, id + 1, &[], &checker.hints(last));
        }
        let clause = numbers(line.trim_start_matches("d "));
        let key = sorted(&clause);
        if line.starts_with('d') {
            let reasons = |checker: &Checker, at: &u64| checker.clauses[at].first().is_some_and(|it| {
                checker.holds[place(*it)] && checker.reasons[it.unsigned_abs() as usize] == *at
            });
            if let Some(gone) = by_literals.get_mut(&key).and_then(|it| it.iter().rposition(|at| !reasons(&checker, at)).map(|at| it.remove(at))) {
                checker.clauses.remove(&gone);
                writeln!(out, "{id} d {gone} 0")?;
            }
            continue;
        }
        let before = checker.trail.len();
        for &literal in &clause {
            if !checker.holds[place(-literal)] && !checker.holds[place(literal)] {
                checker.set(-literal, 0);
            }
        }
        // a literal that holds for good shows the clause by its reason
        let held = clause.iter().find(|&&it| checker.holds[place(it)]);
        let last = match held {
            Some(it) => checker.reasons[it.unsigned_abs() as usize],
            None => checker.propagate().expect("a step that follows"),
        };
        id += 1;
        written(&mut out, id, &clause, &checker.hints(last))?;
        checker.undo(before);
        by_literals.entry(key).or_default().push(id);
        conflict = checker.add(id, clause);
    }
    Ok(())
}
