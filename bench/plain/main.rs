//! The job of `list_states` in plain Rust: reads a sheet's text on standard input and lists its station. With a number of rounds
//! as its argument it lists so often with no output, up to 16,384 states each time, and prints how many states were handed out.

use std::collections::BinaryHeap;
use std::io::{self, BufWriter, Read, Write};
use std::{cmp::Ordering, env};

const TOTAL: u64 = 1_000_000_000_000_000_000;
const DECADE: [u64; 10] = [
    500_000, 400_000, 315_000, 250_000, 200_000, 160_000, 125_000, 100_000, 80_000, 63_000,
];

struct Fault {
    number: u8,
    layer: &'static str,
    line: usize,
    field: usize,
}

struct Sheet {
    figures: Vec<u64>,
    grades: Vec<u64>,
    paths: Vec<u64>,
    feed: u64,
}

fn fault<T>(number: u8, layer: &'static str, line: usize, field: usize) -> Result<T, Fault> {
    Err(Fault { number, layer, line, field })
}

fn number_in(field: &[u8]) -> Option<u64> {
    let leading = field.len() > 1 && field[0] == b'0';
    if field.is_empty() || field.len() > 8 || leading || !field.iter().all(u8::is_ascii_digit) {
        return None;
    }
    Some(field.iter().fold(0, |n, digit| n * 10 + u64::from(digit - b'0')))
}

fn figure(grade: u64) -> u64 {
    DECADE[grade as usize % 10] / 10_u64.pow(grade as u32 / 10)
}

fn read(text: &[u8]) -> Result<Sheet, Fault> {
    if text.len() > 65_536 {
        return fault(13, "text", 0, 0);
    }
    let mut sheet = Sheet { figures: vec![], grades: vec![], paths: vec![], feed: 0 };
    let mut rest = text;
    let mut line = 0;
    while !rest.is_empty() {
        line += 1;
        let Some(end) = rest.iter().position(|byte| *byte == b'\n') else {
            return fault(14, "text", line, 0);
        };
        read_line(&mut sheet, &rest[..end], line)?;
        rest = &rest[end + 1..];
    }
    if sheet.feed == 0 {
        return fault(18, "line", line + 1, 1);
    }
    Ok(sheet)
}

fn read_line(sheet: &mut Sheet, bytes: &[u8], line: usize) -> Result<(), Fault> {
    let mut fields = bytes.split(|byte| *byte == b',');
    let word = fields.next().unwrap_or_default();
    let fields: Vec<&[u8]> = fields.collect();
    let (few, many) = match word {
        b"part" => (3, 3),
        b"path" => (1, 40),
        b"feed" => (1, 1),
        _ => return fault(15, "line", line, 1),
    };
    if fields.len() < few || fields.len() > many {
        return fault(16, "line", line, 0);
    }
    let mut numbers = Vec::with_capacity(fields.len());
    for (place, field) in fields.iter().enumerate() {
        match number_in(field) {
            Some(number) => numbers.push(number),
            None => return fault(17, "line", line, place + 2),
        }
    }
    let parts = sheet.grades.len() as u64;
    let late = sheet.feed != 0 || (word == b"part" && !sheet.paths.is_empty());
    if late || (word == b"part" && numbers[0] != parts + 1) {
        return fault(18, "line", line, 1);
    }
    if word == b"part" {
        let grade = numbers[1];
        if parts == 40 {
            return fault(5, "draft", line, 2);
        }
        if grade > 39 {
            return fault(2, "draft", line, 3);
        }
        if sheet.grades.last().is_some_and(|last| grade < *last) {
            return fault(4, "draft", line, 3);
        }
        sheet.grades.push(grade);
        sheet.figures.push(figure(grade));
        return Ok(());
    }
    let mut last = 0;
    let mut set = 0;
    for (place, number) in numbers.iter().enumerate() {
        if *number <= last || *number > parts {
            return fault(19, "line", line, place + 2);
        }
        last = *number;
        set |= 1 << (number - 1);
    }
    if word == b"feed" {
        sheet.feed = numbers[0];
    } else if sheet.paths.len() == 256 {
        return fault(20, "line", line, 0);
    } else {
        sheet.paths.push(set);
    }
    Ok(())
}

#[derive(Clone, Copy, PartialEq, Eq)]
struct Waiting {
    state: u64,
    mass: u64,
}

impl Ord for Waiting {
    fn cmp(&self, other: &Waiting) -> Ordering {
        self.mass.cmp(&other.mass).then(other.state.cmp(&self.state))
    }
}

impl PartialOrd for Waiting {
    fn partial_cmp(&self, other: &Waiting) -> Option<Ordering> {
        Some(self.cmp(other))
    }
}

enum Next {
    State(u64, bool),
    Finished,
    Full,
}

struct Listing<'a> {
    sheet: &'a Sheet,
    waiting: BinaryHeap<Waiting>,
    up: u64,
    down: u64,
}

impl<'a> Listing<'a> {
    fn open(sheet: &'a Sheet) -> Listing<'a> {
        let mut listing = Listing { sheet, waiting: BinaryHeap::with_capacity(1024), up: 0, down: 0 };
        listing.wait(0);
        listing
    }

    // What is left of the total after the first parts.
    fn left(&self, state: u64, parts: usize) -> u64 {
        let mut left = TOTAL;
        for (place, figure) in self.sheet.figures[..parts].iter().enumerate() {
            let falls = left / 1_000_000 * figure + left % 1_000_000 * figure / 1_000_000;
            left = if state >> place & 1 == 1 { falls } else { left - falls };
        }
        left
    }

    fn wait(&mut self, state: u64) {
        let mass = self.left(state, self.sheet.figures.len());
        self.waiting.push(Waiting { state, mass });
    }

    fn works(&self, state: u64) -> bool {
        state >> (self.sheet.feed - 1) & 1 == 0
            && self.sheet.paths.iter().any(|path| path & state == 0)
    }

    fn next(&mut self) -> Next {
        let Some(&Waiting { state, mass }) = self.waiting.peek() else {
            return Next::Finished;
        };
        let top = (64 - state.leading_zeros()) as usize;
        let up = self.works(state);
        let more = top < self.sheet.figures.len();
        let added = more && up;
        let moved = more && top > 0;
        if self.waiting.len() + usize::from(added) + usize::from(moved) > 1025 {
            return Next::Full;
        }
        self.waiting.pop();
        if up {
            self.up += mass;
        } else {
            self.down += self.left(state, top);
        }
        if added {
            self.wait(state | 1 << top);
        }
        if moved {
            self.wait((state ^ 1 << (top - 1)) | 1 << top);
        }
        Next::State(state, up)
    }
}

fn list(sheet: &Sheet, out: &mut impl Write) -> io::Result<()> {
    writeln!(out, "step,state,verdict,lower,upper")?;
    let mut listing = Listing::open(sheet);
    let mut step = 0;
    loop {
        if step == 4_096 && !listing.waiting.is_empty() {
            return writeln!(out, "end,spent");
        }
        match listing.next() {
            Next::State(state, up) => {
                step += 1;
                let verdict = if up { "up" } else { "down" };
                let lower = listing.up / 1_000_000_000;
                let upper = (TOTAL - listing.down).div_ceil(1_000_000_000);
                writeln!(out, "{step},{state},{verdict},{lower},{upper}")?;
            }
            Next::Finished => return writeln!(out, "end,finished"),
            Next::Full => return writeln!(out, "end,full"),
        }
    }
}

fn rounds(sheet: &Sheet, rounds: u64) -> (u64, u64, u64) {
    let mut handed = 0;
    let (mut up, mut down) = (0, 0);
    for _ in 0..rounds {
        let mut listing = Listing::open(sheet);
        for _ in 0..16_384 {
            if !matches!(listing.next(), Next::State(..)) {
                break;
            }
            handed += 1;
        }
        (up, down) = (listing.up, listing.down);
    }
    (handed, up / 1_000_000_000, (TOTAL - down).div_ceil(1_000_000_000))
}

fn main() -> io::Result<()> {
    let mut text = Vec::new();
    io::stdin().lock().take(65_537).read_to_end(&mut text)?;
    let mut out = BufWriter::new(io::stdout().lock());
    match (read(&text), env::args().nth(1)) {
        (Err(Fault { number, layer, line, field }), _) => {
            writeln!(out, "refused,{number},{layer},{line},{field}")?
        }
        (Ok(sheet), None) => list(&sheet, &mut out)?,
        (Ok(sheet), Some(count)) => {
            let (handed, lower, upper) = rounds(&sheet, count.parse().unwrap_or(0));
            writeln!(out, "handed,{handed},{lower},{upper}")?;
        }
    }
    out.flush()
}
