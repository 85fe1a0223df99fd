//! The operators of the crate `base` in plain Rust, timed as `operators.rt.txt` times that crate.
//!
//! For each it prints the name, the width, the least nanoseconds of one repetition, the words' checksum and the steps.

use std::env;
use std::time::Instant;

const SAMPLES: u32 = 4096;
const ROUNDS: u32 = 256;
const REPETITIONS: u32 = 5;

#[derive(Clone, Copy)]
enum Unary {
    Not,
    Inc,
    Dec,
    Neg,
    Redand,
    Redor,
    Redxor,
}

#[derive(Clone, Copy)]
enum Binary {
    Iff,
    Implies,
    Eq,
    Neq,
    Ugt,
    Ugte,
    Ult,
    Ulte,
    Sgt,
    Sgte,
    Slt,
    Slte,
    And,
    Nand,
    Or,
    Nor,
    Xor,
    Xnor,
    Rol,
    Ror,
    Sll,
    Srl,
    Sra,
    Add,
    Sub,
    Mul,
    Udiv,
    Sdiv,
    Urem,
    Srem,
    Smod,
    Uaddo,
    Saddo,
    Usubo,
    Ssubo,
    Umulo,
    Smulo,
    Sdivo,
}

struct Tally {
    count: u128,
}

impl Tally {
    fn step(&mut self) {
        self.count = self.count.saturating_add(1);
    }
}

/// The word of all ones.
fn ones(w: u32) -> u64 {
    u64::MAX >> (64 - w)
}

/// A word as a signed number.
fn signed(w: u32, a: u64) -> i64 {
    (a << (64 - w)) as i64 >> (64 - w)
}

/// Whether no word of the width stands for a signed number.
fn is_outside(w: u32, z: i128) -> bool {
    let half = 1i128 << (w - 1);
    z < -half || z >= half
}

fn unary(op: Unary, w: u32, a: u64, tally: &mut Tally) -> u64 {
    tally.step();
    match op {
        Unary::Not => !a & ones(w),
        Unary::Inc => a.wrapping_add(1) & ones(w),
        Unary::Dec => a.wrapping_sub(1) & ones(w),
        Unary::Neg => a.wrapping_neg() & ones(w),
        Unary::Redand => (a == ones(w)) as u64,
        Unary::Redor => (a != 0) as u64,
        Unary::Redxor => (a.count_ones() & 1) as u64,
    }
}

fn binary(op: Binary, w: u32, a: u64, b: u64, tally: &mut Tally) -> u64 {
    tally.step();
    match op {
        Binary::Iff | Binary::Eq => (a == b) as u64,
        Binary::Implies => (a == 0 || b == 1) as u64,
        Binary::Neq => (a != b) as u64,
        Binary::Ugt => (a > b) as u64,
        Binary::Ugte => (a >= b) as u64,
        Binary::Ult => (a < b) as u64,
        Binary::Ulte => (a <= b) as u64,
        Binary::Sgt => (signed(w, a) > signed(w, b)) as u64,
        Binary::Sgte => (signed(w, a) >= signed(w, b)) as u64,
        Binary::Slt => (signed(w, a) < signed(w, b)) as u64,
        Binary::Slte => (signed(w, a) <= signed(w, b)) as u64,
        Binary::And => a & b,
        Binary::Nand => !(a & b) & ones(w),
        Binary::Or => a | b,
        Binary::Nor => !(a | b) & ones(w),
        Binary::Xor => a ^ b,
        Binary::Xnor => !(a ^ b) & ones(w),
        Binary::Rol => match b % w as u64 {
            0 => a,
            k => (a << k | a >> (w as u64 - k)) & ones(w),
        },
        Binary::Ror => match b % w as u64 {
            0 => a,
            k => (a >> k | a << (w as u64 - k)) & ones(w),
        },
        Binary::Sll => {
            if b < w as u64 {
                a << b & ones(w)
            } else {
                0
            }
        }
        Binary::Srl => {
            if b < w as u64 {
                a >> b
            } else {
                0
            }
        }
        Binary::Sra => (signed(w, a) >> b.min(63)) as u64 & ones(w),
        Binary::Add => a.wrapping_add(b) & ones(w),
        Binary::Sub => a.wrapping_sub(b) & ones(w),
        Binary::Mul => a.wrapping_mul(b) & ones(w),
        Binary::Udiv => {
            if b == 0 {
                ones(w)
            } else {
                a / b
            }
        }
        Binary::Sdiv => {
            let dividend = signed(w, a);
            if b != 0 {
                dividend.wrapping_div(signed(w, b)) as u64 & ones(w)
            } else if dividend < 0 {
                1
            } else {
                ones(w)
            }
        }
        Binary::Urem => {
            if b == 0 {
                a
            } else {
                a % b
            }
        }
        Binary::Srem => {
            if b == 0 {
                a
            } else {
                signed(w, a).wrapping_rem(signed(w, b)) as u64 & ones(w)
            }
        }
        Binary::Smod => {
            if b == 0 {
                a
            } else {
                let divisor = signed(w, b);
                let rest = signed(w, a).wrapping_rem(divisor);
                let rest = if rest != 0 && (rest < 0) != (divisor < 0) {
                    rest + divisor
                } else {
                    rest
                };
                rest as u64 & ones(w)
            }
        }
        Binary::Uaddo => (a as u128 + b as u128 > ones(w) as u128) as u64,
        Binary::Saddo => is_outside(w, signed(w, a) as i128 + signed(w, b) as i128) as u64,
        Binary::Usubo => (a < b) as u64,
        Binary::Ssubo => is_outside(w, signed(w, a) as i128 - signed(w, b) as i128) as u64,
        Binary::Umulo => (a as u128 * b as u128 > ones(w) as u128) as u64,
        Binary::Smulo => is_outside(w, signed(w, a) as i128 * signed(w, b) as i128) as u64,
        Binary::Sdivo => (a == 1 << (w - 1) && b == ones(w)) as u64,
    }
}

fn ite(_w: u32, c: u64, t: u64, e: u64, tally: &mut Tally) -> u64 {
    tally.step();
    if c == 1 { t } else { e }
}

fn slice(_w: u32, a: u64, u: u64, l: u64, tally: &mut Tally) -> u64 {
    tally.step();
    a >> l & ones((u - l + 1) as u32)
}

fn uext(_w: u32, a: u64, _by: u32, tally: &mut Tally) -> u64 {
    tally.step();
    a
}

fn sext(w: u32, a: u64, by: u32, tally: &mut Tally) -> u64 {
    tally.step();
    signed(w, a) as u64 & ones(w + by)
}

fn concat(_wa: u32, a: u64, wb: u32, b: u64, tally: &mut Tally) -> u64 {
    tally.step();
    a << wb | b
}

/// Two words of a width.
struct Pair {
    width: u32,
    left: u64,
    right: u64,
}

/// A word of a width, and bits of it, both included.
struct Cut {
    width: u32,
    word: u64,
    upper: u64,
    lower: u64,
}

/// Two words of widths that sum to at most 64.
struct Split {
    high_width: u32,
    high: u64,
    low_width: u32,
    low: u64,
}

/// An operator of words.
#[derive(Clone, Copy)]
enum Operator {
    One(Unary),
    Two(Binary),
    Ite,
    Slice,
    Uext,
    Sext,
    Concat,
}

/// The operator that BTOR2 calls so.
fn by_name(name: &str) -> Option<Operator> {
    Some(match name {
        "not" => Operator::One(Unary::Not),
        "inc" => Operator::One(Unary::Inc),
        "dec" => Operator::One(Unary::Dec),
        "neg" => Operator::One(Unary::Neg),
        "redand" => Operator::One(Unary::Redand),
        "redor" => Operator::One(Unary::Redor),
        "redxor" => Operator::One(Unary::Redxor),
        "iff" => Operator::Two(Binary::Iff),
        "implies" => Operator::Two(Binary::Implies),
        "eq" => Operator::Two(Binary::Eq),
        "neq" => Operator::Two(Binary::Neq),
        "ugt" => Operator::Two(Binary::Ugt),
        "ugte" => Operator::Two(Binary::Ugte),
        "ult" => Operator::Two(Binary::Ult),
        "ulte" => Operator::Two(Binary::Ulte),
        "sgt" => Operator::Two(Binary::Sgt),
        "sgte" => Operator::Two(Binary::Sgte),
        "slt" => Operator::Two(Binary::Slt),
        "slte" => Operator::Two(Binary::Slte),
        "and" => Operator::Two(Binary::And),
        "nand" => Operator::Two(Binary::Nand),
        "or" => Operator::Two(Binary::Or),
        "nor" => Operator::Two(Binary::Nor),
        "xor" => Operator::Two(Binary::Xor),
        "xnor" => Operator::Two(Binary::Xnor),
        "rol" => Operator::Two(Binary::Rol),
        "ror" => Operator::Two(Binary::Ror),
        "sll" => Operator::Two(Binary::Sll),
        "srl" => Operator::Two(Binary::Srl),
        "sra" => Operator::Two(Binary::Sra),
        "add" => Operator::Two(Binary::Add),
        "sub" => Operator::Two(Binary::Sub),
        "mul" => Operator::Two(Binary::Mul),
        "udiv" => Operator::Two(Binary::Udiv),
        "sdiv" => Operator::Two(Binary::Sdiv),
        "urem" => Operator::Two(Binary::Urem),
        "srem" => Operator::Two(Binary::Srem),
        "smod" => Operator::Two(Binary::Smod),
        "uaddo" => Operator::Two(Binary::Uaddo),
        "saddo" => Operator::Two(Binary::Saddo),
        "usubo" => Operator::Two(Binary::Usubo),
        "ssubo" => Operator::Two(Binary::Ssubo),
        "umulo" => Operator::Two(Binary::Umulo),
        "smulo" => Operator::Two(Binary::Smulo),
        "sdivo" => Operator::Two(Binary::Sdivo),
        "ite" => Operator::Ite,
        "slice" => Operator::Slice,
        "uext" => Operator::Uext,
        "sext" => Operator::Sext,
        "concat" => Operator::Concat,
        _ => return None,
    })
}

/// The next number of a generator by shifts.
fn next(seed: &mut u64) -> u64 {
    *seed ^= *seed << 13;
    *seed ^= *seed >> 7;
    *seed ^= *seed << 17;
    *seed
}

/// A word of a width.
fn word(seed: &mut u64, w: u32) -> u64 {
    next(seed) & ones(w)
}

/// A word of a width, of each number of bits about as often.
fn short_word(seed: &mut u64, w: u32) -> u64 {
    let bits = next(seed) % w as u64;
    word(seed, w) >> bits
}

/// Pairs of words of a width.
fn pairs(w: u32) -> Vec<Pair> {
    let mut seed = 88172645463325252;
    let mut samples = Vec::new();
    for _ in 0..SAMPLES {
        let left = word(&mut seed, w);
        let right = short_word(&mut seed, w);
        samples.push(Pair {
            width: w,
            left,
            right,
        });
    }
    samples
}

/// Words of a width with bits to be cut out.
fn cuts(w: u32) -> Vec<Cut> {
    let mut seed = 88172645463325252;
    let mut samples = Vec::new();
    for _ in 0..SAMPLES {
        let word = word(&mut seed, w);
        let upper = next(&mut seed) % w as u64;
        let lower = next(&mut seed) % (upper + 1);
        samples.push(Cut {
            width: w,
            word,
            upper,
            lower,
        });
    }
    samples
}

/// Words of two widths that sum to a width.
fn splits(w: u32) -> Vec<Split> {
    let mut seed = 88172645463325252;
    let mut samples = Vec::new();
    for _ in 0..SAMPLES {
        let high_width = 1 + (next(&mut seed) % (w as u64 - 1)) as u32;
        let low_width = w - high_width;
        let high = word(&mut seed, high_width);
        let low = word(&mut seed, low_width);
        samples.push(Split {
            high_width,
            high,
            low_width,
            low,
        });
    }
    samples
}

/// A checksum with one more word.
fn sum(sum: u64, word: u64) -> u64 {
    sum.rotate_left(1).wrapping_add(word)
}

#[inline(never)]
fn run_unary(op: Unary, samples: &[Pair], tally: &mut Tally) -> u64 {
    let mut total = 0;
    for _ in 0..ROUNDS {
        for s in samples {
            total = sum(total, unary(op, s.width, s.left, tally));
        }
    }
    total
}

#[inline(never)]
fn run_binary(op: Binary, samples: &[Pair], tally: &mut Tally) -> u64 {
    let mut total = 0;
    for _ in 0..ROUNDS {
        for s in samples {
            total = sum(total, binary(op, s.width, s.left, s.right, tally));
        }
    }
    total
}

#[inline(never)]
fn run_ite(samples: &[Pair], tally: &mut Tally) -> u64 {
    let mut total = 0;
    for _ in 0..ROUNDS {
        for s in samples {
            total = sum(total, ite(s.width, s.left % 2, s.left, s.right, tally));
        }
    }
    total
}

#[inline(never)]
fn run_slice(samples: &[Cut], tally: &mut Tally) -> u64 {
    let mut total = 0;
    for _ in 0..ROUNDS {
        for s in samples {
            total = sum(total, slice(s.width, s.word, s.upper, s.lower, tally));
        }
    }
    total
}

#[inline(never)]
fn run_uext(samples: &[Split], tally: &mut Tally) -> u64 {
    let mut total = 0;
    for _ in 0..ROUNDS {
        for s in samples {
            total = sum(total, uext(s.high_width, s.high, s.low_width, tally));
        }
    }
    total
}

#[inline(never)]
fn run_sext(samples: &[Split], tally: &mut Tally) -> u64 {
    let mut total = 0;
    for _ in 0..ROUNDS {
        for s in samples {
            total = sum(total, sext(s.high_width, s.high, s.low_width, tally));
        }
    }
    total
}

#[inline(never)]
fn run_concat(samples: &[Split], tally: &mut Tally) -> u64 {
    let mut total = 0;
    for _ in 0..ROUNDS {
        for s in samples {
            total = sum(total, concat(s.high_width, s.high, s.low_width, s.low, tally));
        }
    }
    total
}

/// All samples of a width.
struct Samples {
    pairs: Vec<Pair>,
    cuts: Vec<Cut>,
    splits: Vec<Split>,
}

/// The checksum of an operator over all samples of a width, so many times.
fn run(op: Operator, samples: &Samples, tally: &mut Tally) -> u64 {
    match op {
        Operator::One(op) => run_unary(op, &samples.pairs, tally),
        Operator::Two(op) => run_binary(op, &samples.pairs, tally),
        Operator::Ite => run_ite(&samples.pairs, tally),
        Operator::Slice => run_slice(&samples.cuts, tally),
        Operator::Uext => run_uext(&samples.splits, tally),
        Operator::Sext => run_sext(&samples.splits, tally),
        Operator::Concat => run_concat(&samples.splits, tally),
    }
}

/// Times an operator at a width.
fn measure(name: &str, op: Operator, w: u32, samples: &Samples) {
    let mut least = u128::MAX;
    let mut tally = Tally { count: 0 };
    let mut total = 0;
    for _ in 0..REPETITIONS {
        let start = Instant::now();
        total = run(op, samples, &mut tally);
        least = least.min(start.elapsed().as_nanos());
    }
    println!("{name} {w} {least} {total} {}", tally.count);
}

/// Times the operators that are named, at widths 64 and 7.
fn main() {
    for w in [64, 7] {
        let samples = Samples {
            pairs: pairs(w),
            cuts: cuts(w),
            splits: splits(w),
        };
        for name in env::args().skip(1) {
            if let Some(op) = by_name(&name) {
                measure(&name, op, w, &samples);
            }
        }
    }
}
