// plain FILE KIND REPEATS: what runbench does, as ordinary Rust.
use std::env;
use std::error::Error;
use std::fs;

trait Ring: Copy {
    fn zero() -> Self;
    fn one() -> Self;
    fn numeral(n: u16) -> Self;
    fn add(self, other: Self) -> Self;
    fn multiply(self, other: Self) -> Self;
    fn opposite(self) -> Self;
}

// A whole number modulo 2^32.
#[derive(Clone, Copy)]
struct Word(u32);

impl Ring for Word {
    fn zero() -> Word {
        Word(0)
    }

    fn one() -> Word {
        Word(1)
    }

    fn numeral(n: u16) -> Word {
        Word(u32::from(n))
    }

    fn add(self, other: Word) -> Word {
        Word(self.0.wrapping_add(other.0))
    }

    fn multiply(self, other: Word) -> Word {
        Word(self.0.wrapping_mul(other.0))
    }

    fn opposite(self) -> Word {
        Word(self.0.wrapping_neg())
    }
}

// A value, and the rate at which it changes.
#[derive(Clone, Copy)]
struct Pair<R> {
    value: R,
    rate: R,
}

impl<R: Ring> Pair<R> {
    fn constant(value: R) -> Pair<R> {
        Pair {
            value,
            rate: R::zero(),
        }
    }
}

impl<R: Ring> Ring for Pair<R> {
    fn zero() -> Pair<R> {
        Pair::constant(R::zero())
    }

    fn one() -> Pair<R> {
        Pair::constant(R::one())
    }

    fn numeral(n: u16) -> Pair<R> {
        Pair::constant(R::numeral(n))
    }

    fn add(self, other: Pair<R>) -> Pair<R> {
        Pair {
            value: self.value.add(other.value),
            rate: self.rate.add(other.rate),
        }
    }

    fn multiply(self, other: Pair<R>) -> Pair<R> {
        Pair {
            value: self.value.multiply(other.value),
            rate: self
                .value
                .multiply(other.rate)
                .add(self.rate.multiply(other.value)),
        }
    }

    fn opposite(self) -> Pair<R> {
        Pair {
            value: self.value.opposite(),
            rate: self.rate.opposite(),
        }
    }
}

#[derive(Clone, Copy)]
enum Operand {
    Measure(u8),
    Numeral(u8),
    One,
    Zero,
    ResultOf(u16),
}

#[derive(Clone, Copy)]
enum Operation {
    Add,
    Sub,
    Mul,
    Neg,
}

#[derive(Clone, Copy)]
struct Step {
    operation: Operation,
    left: Operand,
    right: Operand,
}

struct Sheet {
    numerals: Vec<u16>,
    steps: Vec<Step>,
    outputs: Vec<Operand>,
}

fn word(bytes: &[u8]) -> u16 {
    u16::from_le_bytes([bytes[0], bytes[1]])
}

fn operand(bytes: &[u8]) -> Option<Operand> {
    match word(bytes) {
        n @ 0..8 => Some(Operand::Measure(n as u8)),
        n @ 8..16 => Some(Operand::Numeral(n as u8 - 8)),
        16 => Some(Operand::One),
        17 => Some(Operand::Zero),
        n @ 32.. => Some(Operand::ResultOf(n - 32)),
        _ => None,
    }
}

fn step(bytes: &[u8]) -> Option<Step> {
    let operation = match bytes[0] {
        1 => Operation::Add,
        2 => Operation::Sub,
        3 => Operation::Mul,
        4 => Operation::Neg,
        _ => return None,
    };
    Some(Step {
        operation,
        left: operand(&bytes[1..])?,
        right: operand(&bytes[3..])?,
    })
}

fn section(file: &[u8], k: usize) -> Option<&[u8]> {
    let offset = usize::from(word(file.get(1 + 4 * k..3 + 4 * k)?));
    let len = usize::from(word(file.get(3 + 4 * k..5 + 4 * k)?));
    file.get(offset..offset + len)
}

// Reads a file that is known to be good: what is not read here is not checked either.
fn read(file: &[u8]) -> Option<Sheet> {
    Some(Sheet {
        numerals: section(file, 0)?.chunks_exact(2).map(word).collect(),
        steps: section(file, 1)?
            .chunks_exact(5)
            .map(step)
            .collect::<Option<_>>()?,
        outputs: section(file, 2)?
            .chunks_exact(2)
            .map(operand)
            .collect::<Option<_>>()?,
    })
}

fn operand_value<R: Ring>(numerals: &[u16], measures: &[R], cells: &[R], operand: Operand) -> R {
    match operand {
        Operand::Measure(i) => measures[i as usize],
        Operand::Numeral(i) => R::numeral(numerals[i as usize]),
        Operand::One => R::one(),
        Operand::Zero => R::zero(),
        Operand::ResultOf(n) => cells[n as usize],
    }
}

fn step_value<R: Ring>(numerals: &[u16], measures: &[R], cells: &[R], step: Step) -> R {
    let left = operand_value(numerals, measures, cells, step.left);
    let right = operand_value(numerals, measures, cells, step.right);
    match step.operation {
        Operation::Add => left.add(right),
        Operation::Sub => left.add(right.opposite()),
        Operation::Mul => left.multiply(right),
        Operation::Neg => left.opposite(),
    }
}

fn run<R: Ring>(sheet: &Sheet, measures: &[R], cells: &mut [R], outputs: &mut [R]) {
    for (n, step) in sheet.steps.iter().enumerate() {
        cells[n] = step_value(&sheet.numerals, measures, cells, *step);
    }
    for (k, operand) in sheet.outputs.iter().enumerate() {
        outputs[k] = operand_value(&sheet.numerals, measures, cells, *operand);
    }
}

// A kind that is measured: its measures are made from numbers, and its values come back as one.
trait Sample: Ring {
    fn sample(value: u32, rate: u32) -> Self;
    fn number(self) -> u32;
}

impl Sample for Word {
    fn sample(value: u32, _rate: u32) -> Word {
        Word(value)
    }

    fn number(self) -> u32 {
        self.0
    }
}

impl Sample for Pair<Word> {
    fn sample(value: u32, rate: u32) -> Pair<Word> {
        Pair {
            value: Word(value),
            rate: Word(rate),
        }
    }

    fn number(self) -> u32 {
        self.value.0.wrapping_add(self.rate.0.wrapping_mul(3))
    }
}

// The numbers of the outputs, each times its place from 1 on, added up modulo 2^32.
fn checksum<R: Sample>(outputs: &[R]) -> u32 {
    let mut sum = 0u32;
    let mut place = 1u32;
    for output in outputs {
        sum = sum.wrapping_add(place.wrapping_mul(output.number()));
        place += 1;
    }
    sum
}

// One run with another first measure, of the rate 1: the checksum of its outputs.
fn run_at<R: Sample>(
    sheet: &Sheet,
    first: u32,
    measures: &mut [R],
    cells: &mut [R],
    outputs: &mut [R],
) -> u32 {
    measures[0] = R::sample(first, 1);
    run(sheet, measures, cells, outputs);
    checksum(outputs)
}

// Values with no rate, the first as given and each one more than the last.
fn samples<R: Sample>(first: u32, n: usize) -> Vec<R> {
    (first..).take(n).map(|value| R::sample(value, 0)).collect()
}

// So many runs at the measures 2 to 9, but for the first, which goes up from 2: the sum of their
// checksums.
fn repeat<R: Sample>(sheet: &Sheet, repeats: u32) -> u32 {
    let mut measures: Vec<R> = samples(2, 8);
    let mut cells: Vec<R> = samples(0, sheet.steps.len());
    let mut outputs: Vec<R> = samples(0, 16);
    let mut sum = 0u32;
    for k in 0..repeats {
        let first = k.wrapping_add(2);
        let sum_at = run_at(sheet, first, &mut measures, &mut cells, &mut outputs);
        sum = sum.wrapping_add(sum_at);
    }
    sum
}

fn main() -> Result<(), Box<dyn Error>> {
    let words: Vec<String> = env::args().skip(1).collect();
    let [file, kind, repeats] = words.as_slice() else {
        return Err("usage: plain FILE KIND REPEATS".into());
    };
    let repeats = repeats.parse::<u32>()?;
    let sheet = read(&fs::read(file)?).ok_or("the file is refused")?;
    let sum = match kind.as_str() {
        "word" => repeat::<Word>(&sheet, repeats),
        "pair" => repeat::<Pair<Word>>(&sheet, repeats),
        _ => return Err("KIND is word or pair".into()),
    };
    println!("checksum {sum}");
    Ok(())
}
