//! The program glance: its input lines, read anew from document 01's "Worked by hand", and what it must print for them by the Rust's answers.
use crate::compare::{flipped, reduced, refusal, Tally, FLIPS};
use crate::frames::{Frame, Rec, Seed, NONE};
use crate::inputs::{inputs, offset, spoiled};
use crate::rust::{in_ascii, without_lone_quotes, Asked, Said};
use std::fmt::Write;
use std::io::Write as _;
use std::process::{Command, Stdio};

const MOST_SOURCE: usize = 4096;
const MOST_RECORDS: usize = 1024;
const REFERENCE_ROOM: usize = 16384;
const REFERENCE_BYTES: usize = 52;

/// A frame and an offset as input lines; none where a kind or a depth has no two digits.
pub fn lines(f: &Frame, offset: u32) -> Option<Vec<u8>> {
    let mut out: String = f.source.iter().map(|b| format!("{b:02x}")).collect();
    write!(out, "\n{offset:08x}\n").ok()?;
    for (r, parent) in f.recs.iter().zip(f.parents()) {
        if r.kind > 255 || r.depth > 255 {
            return None;
        }
        writeln!(out, "{:02x}{:02x}{:08x}{:08x}{parent:08x}", r.kind, r.depth, r.start, r.end).ok()?;
    }
    Some(out.into_bytes())
}

fn number(digits: &[u8]) -> u32 {
    u32::from_str_radix(std::str::from_utf8(digits).expect("digits"), 16).expect("digits")
}

/// The frame and the offset that an input gives, or its first faulty line, counted from 1; a missing line is faulty at its place.
pub fn read(input: &[u8]) -> Result<(Frame, u32), usize> {
    let mut lines: Vec<&[u8]> = input.split(|&b| b == b'\n').collect();
    let unended = lines.pop().is_some_and(|rest| !rest.is_empty());
    for (i, line) in lines.iter().enumerate() {
        let digits = line.iter().all(|b| matches!(b, b'0'..=b'9' | b'a'..=b'f'));
        let fits = match i {
            0 => line.len() % 2 == 0 && line.len() <= 2 * MOST_SOURCE,
            1 => line.len() == 8,
            _ => line.len() == 28 && i < 2 + MOST_RECORDS,
        };
        if !digits || !fits {
            return Err(i + 1);
        }
    }
    if lines.len() < 3 || unended {
        return Err(lines.len() + 1);
    }
    let source = lines[0].chunks(2).map(|d| number(d) as u8).collect();
    let record = |l: &&[u8]| Rec { kind: number(&l[..2]), depth: number(&l[2..4]), start: number(&l[4..12]), end: number(&l[12..20]) };
    let strays = lines[2..].iter().map(|l| number(&l[20..])).enumerate().collect();
    Ok((Frame { source, recs: lines[2..].iter().map(record).collect(), message: Vec::new(), rest: 0, strays }, number(lines[1])))
}

/// What is to be printed, or why the Rust does not say: it stops at a lone quote mark, and it cannot be asked where a text is cut inside a character.
pub enum Printed {
    Text(Vec<u8>),
    Stopped,
    NoText,
}

fn range(out: &mut String, pair: &[u32]) {
    if pair == [NONE, NONE] { out.push_str(" - -") } else { let _ = write!(out, " {} {}", pair[0], pair[1]); }
}

fn refused(number: u32, detail: u32) -> Result<Printed, String> {
    Ok(Printed::Text(format!("R {number} {detail}\n").into_bytes()))
}

/// The whole output for an input.
pub fn printed(input: &[u8]) -> Result<Printed, String> {
    match read(input) {
        Ok((f, offset)) => refusal(&f, 0).map_or_else(|| answered(&f, offset), |(number, detail)| refused(number, detail)),
        Err(line) => refused(9, line as u32),
    }
}

/// The same, and where the Rust does not say, what it says of the frame with a letter for a lone quote mark and a mark for a byte over 127.
fn printed_by_all(input: &[u8]) -> Result<Printed, String> {
    let said = printed(input)?;
    match (&said, read(input)) {
        (Printed::Stopped | Printed::NoText, Ok((f, offset))) => answered(&without_lone_quotes(&in_ascii(&f)), offset),
        _ => Ok(said),
    }
}

fn answered(f: &Frame, offset: u32) -> Result<Printed, String> {
    let Some(rust) = Asked::new(f) else { return Ok(Printed::NoText) };
    let Said::Answer(lists) = rust.scope(0) else { return Ok(Printed::Stopped) };
    let [_, _, _, references] = lists?;
    if references.len() * REFERENCE_BYTES > REFERENCE_ROOM {
        return refused(7, references.len() as u32);
    }
    let context = rust.context(offset)?;
    let mut out = format!("C {}", context[0]);
    range(&mut out, &context[1..3]);
    let statement = rust.statement(offset);
    let _ = write!(out, " {}\nS {}\n", context[3], if statement == NONE { "-".into() } else { statement.to_string() });
    for row in &references {
        let _ = write!(out, "T {}", row[0]);
        row[1..].chunks(2).for_each(|pair| range(&mut out, pair));
        out.push('\n');
    }
    for row in rust.classes() {
        let _ = writeln!(out, "K {} {} {}", row[0], row[1], row[2]);
    }
    for row in rust.openers()? {
        let _ = writeln!(out, "O {}", row[0]);
    }
    out.push_str("E\n");
    Ok(Printed::Text(out.into_bytes()))
}

/// The program itself: its words, and one in how many frames it is asked. No words: it is not asked.
pub struct Program<'a> {
    pub words: &'a [String],
    pub every: usize,
}

impl Program<'_> {
    pub fn asks(&self, i: usize) -> bool {
        !self.words.is_empty() && i % self.every == 0
    }

    /// What it prints. It may stop reading at a faulty line, so that not all of the input is taken.
    fn run(&self, input: &[u8]) -> std::io::Result<Vec<u8>> {
        let mut child = Command::new(&self.words[0]).args(&self.words[1..]).stdin(Stdio::piped()).stdout(Stdio::piped()).spawn()?;
        let _ = child.stdin.take().expect("piped").write_all(input);
        let out = child.wait_with_output()?;
        if out.status.success() { Ok(out.stdout) } else { Err(std::io::Error::other(out.status.to_string())) }
    }

    /// Does it print what the Rust's answers say?
    fn agrees(&self, input: &[u8]) -> Result<(), String> {
        let Printed::Text(expected) = printed_by_all(input)? else { return Err("the Rust stops with no lone quote mark".into()) };
        let mut ours = self.run(input).map_err(|e| format!("glance cannot be run: {e}"))?;
        if flipped(FLIPS) { ours.pop(); }
        if ours == expected {
            return Ok(());
        }
        let show = |bytes: &[u8]| String::from_utf8_lossy(bytes).into_owned();
        Err(format!("glance prints\n{}and by the Rust it is\n{}for the input\n{}", show(&ours), show(&expected), show(input)))
    }

    /// A part's share of the inputs that are made by hand: every so many, since the large ones stand together.
    pub fn by_hand(&self, part: usize, parts: usize, tally: &mut Tally) -> Result<(), String> {
        for (sort, input) in inputs(0, 1).iter().skip(part - 1).step_by(parts).filter(|_| self.asks(0)) {
            self.agrees(input).map_err(|why| format!("{sort}: {why}"))?;
            tally.glanced += 1;
        }
        Ok(())
    }

    /// A frame at an offset, and at times with a spoiled line; where it differs, the smallest frame that still does.
    pub fn frame(&self, i: usize, f: &Frame, seed: &mut Seed, tally: &mut Tally) -> Result<(), String> {
        if !self.asks(i) || f.recs.is_empty() || f.rest > 0 {
            return Ok(());
        }
        let at = offset(f, seed);
        let Some(input) = lines(f, at) else { return Ok(()) };
        let differs = |f: &Frame| lines(f, at).and_then(|input| self.agrees(&input).err());
        tally.glanced += 1;
        if seed.one_in(8) {
            return self.agrees(&spoiled(input, seed));
        }
        self.agrees(&input).map_err(|_| differs(&reduced(f.clone(), |f| differs(f).is_some())).expect("still"))
    }
}
