//! Inputs of glance: those made by hand, and those made from a seed.
use crate::frames::{empty, frame, words, Frame, Rec, Seed, Sort, BARE_WORD, NONE};
use crate::glance::lines;
use crate::text::lsp::semantic_tokens;
use std::collections::HashSet;

/// Document 01's worked example.
const WORKED: &str = "SELECT r. FROM raw r";
const WORKED_RECORDS: [(u32, u32, u32, u32); 17] = [
    (1, 0, 0, 20), (4, 1, 0, 20), (15, 2, 0, 9), (131, 3, 0, 6), (129, 3, 6, 7), (47, 3, 7, 9), (131, 4, 7, 8), (128, 4, 8, 9), (129, 2, 9, 10),
    (16, 2, 10, 20), (131, 3, 10, 14), (129, 3, 14, 15), (33, 3, 15, 18), (131, 4, 15, 18), (129, 3, 18, 19), (35, 3, 19, 20), (131, 4, 19, 20),
];

pub fn made(source: &str, recs: &[(u32, u32, u32, u32)]) -> Frame {
    let recs = recs.iter().map(|&(kind, depth, start, end)| Rec { kind, depth, start, end }).collect();
    Frame { source: source.into(), recs, ..empty() }
}

/// The inputs gathered so far, none twice.
struct Inputs {
    all: Vec<(&'static str, Vec<u8>)>,
    known: HashSet<Vec<u8>>,
}

impl Inputs {
    fn put(&mut self, sort: &'static str, input: Vec<u8>) {
        if self.known.insert(input.clone()) {
            self.all.push((sort, input));
        }
    }

    fn frame(&mut self, sort: &'static str, f: &Frame, offset: u32) {
        self.put(sort, lines(f, offset).expect("two digits each"));
    }
}

fn worked(out: &mut Inputs) {
    let f = made(WORKED, &WORKED_RECORDS);
    for offset in [9, 10].into_iter().chain(0..23).chain([NONE]) {
        out.frame("worked example", &f, offset);
    }
}

/// Every kind of two digits, as a record below a File and as the whole table; and every kind of parent above a word, a keyword and a Quoted.
fn kinds(out: &mut Inputs) {
    for kind in 0..256 {
        out.frame("kinds", &made("x", &[(1, 0, 0, 1), (kind, 1, 0, 1)]), 0);
    }
    for kind in [0, 2, 4, 16, 30, 43, 55, 56, 127, 128, 131, 157, 158, 255] {
        out.frame("kinds", &made("x", &[(kind, 0, 0, 1)]), 1);
    }
    let mut under = vec![(1, 0, 0, 9)];
    for kind in 0..56 {
        under.extend([(kind, 1, 0, 9), (131, 2, 0, 0)]);
    }
    out.frame("kinds", &made("a select", &under), 0);
    for (source, token) in [("a", 131), ("select", 131), ("`a`", 132)] {
        let mut f = empty();
        f.recs.push(Rec { kind: 1, depth: 0, start: 0, end: NONE });
        for kind in 0..56 {
            let start = f.source.len() as u32;
            f.source.extend(source.as_bytes());
            let end = f.source.len() as u32;
            f.recs.extend([Rec { kind, depth: 1, start, end }, Rec { kind: token, depth: 2, start, end }]);
        }
        for offset in [0, 60, 200] {
            out.frame("kinds", &f, offset);
        }
    }
}

fn keywords(out: &mut Inputs, seed: &mut Seed) {
    for some in semantic_tokens::words().chunks(40) {
        // as they stand, one behind the other below one parent
        let mut f = empty();
        f.recs.push(Rec { kind: 0, depth: 0, start: 0, end: NONE });
        for word in some {
            let start = f.source.len() as u32;
            f.source.extend(word.as_bytes());
            f.recs.push(Rec { kind: BARE_WORD, depth: 1, start, end: f.source.len() as u32 });
        }
        out.frame("keywords", &f, 0);
        for _ in 0..4 {
            let f = words(some, seed);
            out.frame("keywords", &f, 0);
        }
    }
}

/// A FROM with JOINs in each other, and a table at the given nestings: a table is listed once for each FROM or JOIN around it.
fn references(nestings: &[u32]) -> Frame {
    let deepest = *nestings.iter().max().expect("one");
    let mut f = empty();
    f.recs.push(Rec { kind: 1, depth: 0, start: 0, end: NONE });
    for level in 1..=deepest {
        f.recs.push(Rec { kind: if level == 1 { 16 } else { 17 }, depth: level, start: 0, end: NONE });
        for _ in nestings.iter().filter(|&&n| n == level) {
            let start = f.source.len() as u32;
            f.source.push(b't');
            f.recs.extend([Rec { kind: 33, depth: level + 1, start, end: start + 1 }, Rec { kind: 131, depth: level + 2, start, end: start + 1 }]);
        }
    }
    f
}

impl Inputs {
    fn boundary(&mut self, f: &Frame, offsets: &[u32]) {
        offsets.iter().for_each(|&at| self.frame("boundaries", f, at));
    }
}

/// A node of each kind in a statement at a dot, a word, a comma and behind its end, and below a join constraint; a clause of each kind with the
/// cursor behind it in a statement of each kind; a node of each kind next below one whose rule looks there.
fn rules(out: &mut Inputs) {
    const SORT: &str = "rules for the cursor";
    let tokens = [(131, 0, 1), (128, 1, 2), (129, 2, 3), (131, 3, 5), (129, 5, 6), (137, 6, 7), (131, 7, 8), (136, 8, 9), (131, 9, 10)];
    for kind in 0..56 {
        let mut recs = vec![(1, 0, 0, 12), (4, 1, 0, 12), (kind, 2, 0, 10)];
        recs.extend(tokens.map(|(k, start, end)| (k, 3, start, end)));
        for at in [1, 4, 9, 11] {
            out.frame(SORT, &made("a. on (x,y  ", &recs), at);
        }
        out.frame(SORT, &made("a.", &[(28, 0, 0, 2), (kind, 1, 0, 2), (131, 2, 0, 1), (128, 2, 1, 2)]), 1);
        for above in [1, 2, 5, 17, 37] {
            out.frame(SORT, &made("a ", &[(above, 0, 0, 2), (kind, 1, 0, 2), (131, 2, 0, 1)]), 2);
        }
    }
    for statement in 4..14 {
        for clause in [3, 15, 16, 18, 19, 20, 21, 22, 23, 26] {
            out.frame(SORT, &made("a  ", &[(0, 0, 0, 3), (statement, 1, 0, 3), (clause, 2, 0, 1), (131, 3, 0, 1)]), 2);
        }
    }
}

/// A call with calls and brackets in it, `f(a,g(b,c),(d,e),h`, at each offset; and with its name given in other ways.
fn calls(out: &mut Inputs) {
    let behind = [(137, 1, 1, 2), (131, 1, 2, 3), (136, 1, 3, 4), (44, 1, 4, 10), (131, 2, 4, 5), (137, 2, 5, 6), (131, 2, 6, 7), (136, 2, 7, 8), (131, 2, 8, 9), (140, 2, 9, 10),
        (136, 1, 10, 11), (55, 1, 11, 16), (137, 2, 11, 12), (131, 2, 12, 13), (136, 2, 13, 14), (131, 2, 14, 15), (140, 2, 15, 16), (136, 1, 16, 17), (131, 1, 17, 18)];
    let names: [&[(u32, u32, u32, u32)]; 5] =
        [&[(131, 1, 0, 1)], &[(46, 1, 0, 1), (131, 2, 0, 1)], &[(46, 1, 0, 1), (132, 2, 0, 1)], &[(132, 1, 0, 1)], &[(46, 1, 0, 0), (131, 1, 0, 0), (131, 1, 0, 1)]];
    for (i, name) in names.iter().enumerate() {
        let recs = [&[(43, 0, 0, 18)], *name, &behind].concat();
        for at in (0..19).step_by(if i == 0 { 1 } else { 6 }) {
            out.frame("rules for the cursor", &made("f(a,g(b,c),(d,e),h", &recs), at);
        }
    }
}

/// A node of each kind above a FROM, between it and a table's name, behind the name with a word, and behind it with a name of its own.
fn tables(out: &mut Inputs) {
    const SORT: &str = "rules for the table reading";
    for kind in 0..56 {
        out.frame(SORT, &made("ab", &[(1, 0, 0, 2), (kind, 1, 0, 2), (16, 2, 0, 2), (33, 3, 0, 1), (131, 4, 0, 1), (35, 3, 1, 2), (131, 4, 1, 2)]), 1);
        out.frame(SORT, &made("ab", &[(16, 0, 0, 2), (kind, 1, 0, 2), (33, 2, 0, 1), (131, 3, 0, 1), (35, 2, 1, 2), (132, 3, 1, 2)]), 1);
        out.frame(SORT, &made("ab", &[(16, 0, 0, 2), (33, 1, 0, 1), (131, 2, 0, 1), (kind, 1, 1, 2), (131, 2, 1, 2)]), 1);
        let named = [(16, 0, 0, 9), (33, 1, 0, 1), (131, 2, 0, 1), (kind, 1, 1, 4), (33, 2, 1, 2), (131, 3, 1, 2), (35, 2, 2, 4), (131, 3, 2, 4), (35, 1, 4, 9), (131, 2, 4, 6), (132, 2, 6, 9)];
        out.frame(SORT, &made("abasas`c`", &named), 9);
    }
}

/// Names with and without their quotes, as a database, a table and an alias at once: a bareword and a Quoted of each text. The Rust stops at a lone mark as an alias.
fn quotes(out: &mut Inputs) {
    for name in ["a", "`a`", "\"a b\"", "``", "\"\"", "`", "\"", "`a", "a`", "`a\"", "\"a`", "`é`", "'a'", ""] {
        let n = name.len() as u32;
        for kind in [131, 132] {
            let part = |depth, i| (kind, depth, n * i, n * (i + 1));
            let recs = [(16, 0, 0, 9), (33, 1, 0, 9), part(2, 0), part(2, 1), (35, 1, 0, 9), part(2, 2)];
            out.boundary(&made(&name.repeat(3), &recs), &[0]);
            out.boundary(&made(&name.repeat(2), &recs[..5]), &[0]);
        }
    }
}

/// The cases that document 01 names.
fn named_cases(out: &mut Inputs) {
    out.boundary(&made("", &[(1, 0, NONE, 0)]), &[0, 1, NONE]);
    out.boundary(&made("", &[(1, 0, 0, 0)]), &[0, 1, NONE]);
    out.boundary(&made("( ] )", &[(1, 0, 0, 5), (137, 1, 0, 1), (141, 1, 2, 3), (140, 1, 4, 5)]), &[0, 5]);
    out.boundary(&made("( [ )", &[(1, 0, 0, 5), (137, 1, 0, 1), (138, 1, 2, 3), (140, 1, 4, 5)]), &[0, 5]);
    out.boundary(&made("{[(", &[(1, 0, 0, 3), (139, 1, 0, 1), (138, 1, 1, 2), (137, 1, 2, 3)]), &[3]);
    // names of none to four parts, and an alias behind them
    for parts in 0..5 {
        let mut recs = vec![(1, 0, 0, 9), (16, 1, 0, 9), (33, 2, 0, 5)];
        recs.extend((0..parts).map(|i| (131 + i % 2, 3, i, i + 1)));
        out.boundary(&made("abcdefghi", &recs), &[0, 9]);
        recs.extend([(35, 2, 7, 8), (131, 3, 7, 8)]);
        out.boundary(&made("abcdefghi", &recs), &[0, 9]);
    }
    let join = [(1, 0, 0, 13), (4, 1, 0, 13), (16, 2, 0, 13), (131, 3, 0, 4), (33, 3, 5, 6), (131, 4, 5, 6), (17, 3, 7, 13), (131, 4, 7, 11), (33, 4, 12, 13),
        (131, 5, 12, 13)];
    out.boundary(&made("FROM a JOIN b", &join), &[0, 4, 5, 6, 7, 11, 12, 13, 14, NONE]);
    for word in ["t", "to", "TO", "tO", "UNCOMPRESSED", "uncompresseD", "UNCOMPRESSEDX", "HIERARCHICAL", "é", "tı"] {
        let end = word.len() as u32;
        out.boundary(&made(word, &[(1, 0, 0, end), (131, 1, 0, end)]), &[0, end]);
    }
}

/// 62 to 65, below a node and beside and below a token; 3 below 1; below a token; a second depth 0.
fn depths(out: &mut Inputs) {
    for deepest in [62, 63, 64, 65] {
        let chain: Vec<_> = (0..=deepest).map(|d| (0, d, 0, 0)).collect();
        out.boundary(&made("", &chain), &[0]);
        let mut closed = chain.clone();
        closed.push((131, deepest, 0, 0));
        out.boundary(&made("", &closed), &[0]);
        closed.push((131, deepest + 1, 0, 0));
        out.boundary(&made("", &closed), &[0]);
    }
    for depths in [&[0, 1, 3][..], &[0, 2], &[0, 1, 0], &[1], &[0, 1, 2, 255], &[0, 255], &[0, 1, 64]] {
        let recs: Vec<_> = depths.iter().map(|&d| (4, d, 0, 1)).collect();
        out.boundary(&made("x", &recs), &[0]);
    }
    out.boundary(&made("x", &[(1, 0, 0, 1), (131, 1, 0, 1), (0, 2, 0, 1)]), &[0]);
    out.boundary(&made("x", &[(131, 0, 0, 1)]), &[0]);
}

/// At the source's end, one past, turned round, over the one before, of length zero: of tokens and of nodes.
fn spans(out: &mut Inputs) {
    for span in [(0, 3), (0, 4), (3, 3), (4, 4), (3, 2), (2, 1), (1, 3), (0, 2), (1, NONE), (NONE, NONE), (NONE, 0)] {
        out.boundary(&made("abc", &[(1, 0, 0, 3), (131, 1, span.0, span.1)]), &[0, 3]);
        out.boundary(&made("abc", &[(1, 0, 0, 3), (131, 1, 0, 1), (4, 1, 9, 2), (131, 2, span.0, span.1)]), &[0, 3]);
        out.boundary(&made("abc", &[(1, 0, span.0, span.1), (4, 1, span.0, span.1), (131, 2, 0, 1)]), &[0, 1, 3, 4, NONE]);
    }
}

/// 4,096 bytes of source, 1,024 records, 315 references, and more.
fn sizes(out: &mut Inputs) {
    for length in [4095, 4096, 4097, 5000] {
        let source = "é".repeat(length / 2) + &"x".repeat(length % 2);
        out.boundary(&made(&source, &[(1, 0, 0, length as u32), (131, 1, length as u32 - length as u32 % 2 - 2, length as u32)]), &[length as u32]);
    }
    for records in [1023, 1024, 1025, 1026, 1400] {
        let mut recs = vec![(1, 0, 0, 9)];
        recs.extend((1..records).map(|i| if i % 7 == 0 { (137, 1, 0, 0) } else { (4, 1, i, i + 9) }));
        out.boundary(&made("", &recs), &[0, 500]);
    }
    let ladder: Vec<u32> = (1..=24).collect();
    for more in [14, 15, 16, 24] {
        out.boundary(&references(&[&ladder[..], &[more]].concat()), &[0]);
    }
    out.boundary(&references(&[&[1][..], &[2; 157]].concat()), &[0]);
    out.boundary(&references(&[2; 158]), &[0]);
    out.boundary(&references(&[60; 300]), &[0]);
}

/// Lines that are not of the stated form, made by hand.
fn bad_lines(out: &mut Inputs) {
    const SORT: &str = "bad lines by hand";
    let good = lines(&made("ab", &[(1, 0, 0, 2), (131, 1, 0, 1), (131, 1, 1, 2)]), 1).expect("two digits each");
    let text = String::from_utf8(good.clone()).expect("digits");
    let ended: Vec<&str> = text.split_inclusive('\n').collect();
    for whole in ["", "\n", "\n\n", "\n\n\n", "\r\n", " ", "0", "00", "00\n", "00\n0000000\n", "00\n00000000", "00\n00000000\n", "\n00000000\n", "\n00000000\n\n", "0\n", "000\n", "zz\n",
        "R 9 1\n", "\u{feff}00\n"] {
        out.put(SORT, whole.into());
    }
    out.put(SORT, good.clone());
    // records without their parents, as they were once written
    out.put(SORT, ended.iter().map(|l| if l.len() == 29 { format!("{}\n", &l[..20]) } else { l.to_string() }).collect::<String>().into());
    // no LF at the end, all at once and line by line; a line missing; a line twice; CR LF; upper case; spaces; an empty line; a longer and a shorter line
    for i in 0..ended.len() {
        let upto: String = ended[..i].concat();
        let behind: String = ended[i + 1..].concat();
        let line = ended[i].trim_end();
        out.put(SORT, upto.clone().into());
        out.put(SORT, (upto.clone() + line).into());
        for other in ["\n".to_string(), "".into(), format!("{line}\r\n"), format!("{line} \n"), format!(" {line}\n"), format!("{line}0\n"), format!("{line}00\n"), format!("0{line}\n"),
            format!("{}\n", &line[1..]), format!("{}\n", &line[2..]), format!("{}F\n", &line[1..]), format!("{}\n", line.replace('0', "O")), format!("{line}\n{line}\n"), format!("{line}\n\n"),
            format!("{}\n", "0".repeat(40000)), format!("{}\n", line.replace('6', "\u{e9}")), format!("{}\t\n", &line[1..]), format!("{}\0\n", &line[1..])] {
            out.put(SORT, (upto.clone() + &other + &behind).into());
        }
        for byte in [b'g', b'G', b'A', b'F', b'/', b':', b'`', b'@', b'.', 127, 128, 200, 255] {
            let mut bytes = good.clone();
            bytes[upto.len()] = byte;
            out.put(SORT, bytes);
        }
    }
    // with many records: a fault before the first that is too many, in it, behind it, and none
    let many = made("", &(0..1040).map(|i| (0, (i > 0) as u32, 0, 0)).collect::<Vec<_>>());
    let many = String::from_utf8(lines(&many, 0).expect("two digits each")).expect("digits");
    let many: Vec<&str> = many.split_inclusive('\n').collect();
    for (records, fault) in [(1024, 10), (1024, 1025), (1025, 10), (1025, 1026), (1040, 1030), (1040, 12), (1040, 2000)] {
        let all: String = (0..2 + records).map(|i| if i == fault { "0000\n" } else { many[i] }).collect();
        out.put(SORT, all.clone().into());
        out.put(SORT, all.trim_end().into());
    }
}

/// A byte changed, left out or put in, a line lost or doubled: most are faulty lines, the rest are other frames.
pub fn spoiled(mut input: Vec<u8>, seed: &mut Seed) -> Vec<u8> {
    let at = seed.below(input.len());
    match seed.below(5) {
        0 => input[at] = seed.of(b"0189afAFgG/:`@ \r\n\xc3\xff\0"),
        1 => { input.remove(at); }
        2 => input.insert(at, seed.of(b"0fFg\r\n ")),
        3 => input.truncate(at),
        _ => input[at] = seed.of(b"0123456789abcdef"),
    }
    input
}

/// Where to ask: often at a dot, or in a node of a context that is rare.
pub fn offset(f: &Frame, seed: &mut Seed) -> u32 {
    let end = f.source.len() as u32;
    let dots: Vec<u32> = (0..f.recs.len()).filter(|&i| f.text(i) == b".").flat_map(|i| [f.recs[i].start, f.recs[i].end]).collect();
    let rare: Vec<u32> = f.recs.iter().filter(|r| matches!(r.kind, 23..=27 | 37..=44)).flat_map(|r| [r.start, r.end]).collect();
    match seed.below(20) {
        12..=15 if !dots.is_empty() => seed.of(&dots),
        16..=19 if !rare.is_empty() => seed.of(&rare),
        0 => 0,
        1 => end,
        2 => seed.of(&[end + 1, NONE, NONE - 1]),
        3 => seed.below(f.source.len() + 1) as u32,
        4 => f.recs[seed.below(f.recs.len())].start,
        _ => f.recs[seed.below(f.recs.len())].end,
    }
}

/// A frame of a sort within glance's limits, of at most so many records, whose source is a text.
fn small(sort: Sort, most: usize, seed: &mut Seed) -> (Frame, u32) {
    loop {
        let f = frame(sort, seed);
        let fits = f.recs.len() <= most && f.source.len() <= 4096 && f.rest == 0 && !f.recs.is_empty();
        if fits && std::str::from_utf8(&f.source).is_ok() && lines(&f, 0).is_some() {
            let at = offset(&f, seed);
            return (f, at);
        }
    }
}

fn from_seed(out: &mut Inputs, frames: usize, seed: &mut Seed) {
    for i in 0.. {
        if out.all.len() >= frames {
            return;
        }
        let size = match i % 20 { 0 => 1024, 1..=4 => 150, _ => 70 };
        match i % 100 {
            0..=28 => { let (f, at) = small(Sort::Query, size, seed); out.frame("queries", &f, at) }
            29..=34 => { let (f, at) = small(Sort::OneAlias, size.max(150), seed); out.frame("inner and outer alias of one name", &f, at) }
            35..=42 => { let (f, at) = small(Sort::HalfTyped, size, seed); let at = if i % 2 == 0 { f.source.len() as u32 } else { at }; out.frame("half-typed queries", &f, at) }
            43..=66 => { let (f, at) = small(Sort::Tidy, size, seed); out.frame("random trees, spans as the parser gives them", &f, at) }
            67..=76 => { let (f, at) = small(Sort::Random, size, seed); out.frame("random trees, any spans", &f, at) }
            77 | 78 => { let (f, at) = small(Sort::Deep, 1024, seed); out.frame("depth 63", &f, at) }
            79 if i % 200 == 79 => { let (f, at) = large(seed); out.frame("1,024 records", &f, at) }
            79..=90 => { let (f, at) = small(Sort::Damaged, size, seed); out.frame("damaged copies", &f, at) }
            _ => {
                let (f, at) = if i % 2 == 0 { small(Sort::Query, 70, seed) } else { small(Sort::Random, 70, seed) };
                out.put("spoiled lines", spoiled(lines(&f, at).expect("two digits each"), seed))
            }
        }
    }
}

fn large(seed: &mut Seed) -> (Frame, u32) {
    loop {
        let f = frame(Sort::Large, seed);
        if f.recs.len() == 1024 && f.source.len() <= 4096 && std::str::from_utf8(&f.source).is_ok() {
            let at = offset(&f, seed);
            return (f, at);
        }
    }
}

/// Inputs with the name of their sort: those made by hand, then so many from the seed that there are `frames`.
pub fn inputs(frames: usize, seed: u64) -> Vec<(&'static str, Vec<u8>)> {
    let mut inputs = Inputs { all: Vec::new(), known: HashSet::new() };
    let mut seed = Seed(seed.wrapping_mul(0x9E3779B97F4A7C15) | 1);
    worked(&mut inputs);
    kinds(&mut inputs);
    keywords(&mut inputs, &mut seed);
    rules(&mut inputs);
    calls(&mut inputs);
    tables(&mut inputs);
    quotes(&mut inputs);
    named_cases(&mut inputs);
    depths(&mut inputs);
    spans(&mut inputs);
    sizes(&mut inputs);
    bad_lines(&mut inputs);
    from_seed(&mut inputs, frames, &mut seed);
    inputs.all
}
