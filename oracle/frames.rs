//! Frames: a source, a table and a message, from a seed.
use crate::text::lsp::semantic_tokens;

pub const NONE: u32 = u32::MAX;
pub const BARE_WORD: u32 = 131;
pub const QUOTED: u32 = 132;
pub const TABLE_IDENTIFIER: u32 = 33;

#[derive(Clone, Copy, PartialEq, Debug)]
pub struct Rec {
    pub kind: u32,
    pub depth: u32,
    pub start: u32,
    pub end: u32,
}

impl Rec {
    pub fn is_token(&self) -> bool {
        self.kind >= 128
    }
}

#[derive(Clone)]
pub struct Frame {
    pub source: Vec<u8>,
    pub recs: Vec<Rec>,
    pub message: Vec<u8>,
    /// Bytes behind the last record, for tables of a wrong length.
    pub rest: usize,
    /// Records that carry another number than their parent's.
    pub strays: Vec<(usize, u32)>,
}

impl Frame {
    /// The text of a token of an admitted table; nothing for other records.
    pub fn text(&self, i: usize) -> &[u8] {
        let r = self.recs[i];
        if r.is_token() { self.source.get(r.start as usize..r.end as usize).unwrap_or(&[]) } else { &[] }
    }

    pub fn table(&self) -> Vec<u8> {
        let mut t: Vec<u8> = self.recs.iter().zip(self.parents()).flat_map(|(r, p)| [r.kind, r.depth, r.start, r.end, p]).flat_map(u32::to_le_bytes).collect();
        t.resize(t.len() + self.rest, 0);
        t
    }

    /// The parent's number that each record carries: that of the last record one less deep, but for strays.
    pub fn parents(&self) -> Vec<u32> {
        let mut last = std::collections::HashMap::new();
        let mut parents = Vec::new();
        for (i, r) in self.recs.iter().enumerate() {
            parents.push(r.depth.checked_sub(1).and_then(|d| last.get(&d).copied()).unwrap_or(0));
            last.insert(r.depth, i as u32);
        }
        for &(i, p) in self.strays.iter().filter(|s| s.0 < self.recs.len()) {
            parents[i] = p;
        }
        parents
    }
}

/// xorshift: the same frames from the same seed, everywhere.
pub struct Seed(pub u64);

impl Seed {
    pub fn below(&mut self, n: usize) -> usize {
        self.0 ^= self.0 << 13;
        self.0 ^= self.0 >> 7;
        self.0 ^= self.0 << 17;
        ((self.0 >> 11) % n as u64) as usize
    }

    pub fn one_in(&mut self, n: usize) -> bool {
        self.below(n) == 0
    }

    pub fn of<T: Copy>(&mut self, all: &[T]) -> T {
        all[self.below(all.len())]
    }
}

#[derive(Clone, Copy, PartialEq, Debug)]
pub enum Sort {
    Query,
    OneAlias,
    HalfTyped,
    Words,
    Tidy,
    Around,
    Random,
    Deep,
    Large,
    Damaged,
}

pub const SORTS: [Sort; 10] = [Sort::Query, Sort::OneAlias, Sort::HalfTyped, Sort::Words, Sort::Tidy, Sort::Around, Sort::Random, Sort::Deep, Sort::Large, Sort::Damaged];

const MESSAGES: [&str; 9] = [
    "", "expected )", "expected ]", "expected }", "x expected ] or expected )", "expected", "unexpected )", "expected }, expected ]", "é expected )é",
];

pub fn frame(sort: Sort, seed: &mut Seed) -> Frame {
    let mut f = match sort {
        Sort::Query => query(seed, 1),
        Sort::OneAlias => one_alias(seed),
        Sort::HalfTyped => half_typed(query(seed, 1), seed),
        Sort::Words => {
            let some: Vec<&str> = (0..40).map(|_| seed.of(semantic_tokens::words())).collect();
            words(&some, seed)
        }
        Sort::Tidy => tidy(seed),
        Sort::Around => around(seed),
        Sort::Random => {
            let most = seed.of(&[3, 6, 12, 25, 60]);
            let deepest = seed.of(&[3, 6, 12]);
            random(seed, most, deepest)
        }
        Sort::Deep => if seed.one_in(2) { random(seed, 200, 63) } else { page(seed, 260, 63) },
        Sort::Large => {
            let n = seed.of(&[1024, 4096]);
            match seed.below(4) {
                0 | 1 => random(seed, n, 63),
                k => page(seed, n, [62, 63][k - 2]),
            }
        }
        Sort::Damaged => {
            let mut f = if seed.one_in(2) { query(seed, 1) } else { random(seed, 20, 8) };
            damage(&mut f, seed);
            if f.message.is_empty() {
                f.message = seed.of(&MESSAGES).as_bytes().to_vec();
            }
            return f;
        }
    };
    f.message = seed.of(&MESSAGES).as_bytes().to_vec();
    f
}

// ---- realistic queries, with consistent spans

struct Query<'a> {
    f: Frame,
    depth: u32,
    /// No record stands deeper: what a node there would hold stands in its place.
    deepest: u32,
    seed: &'a mut Seed,
}

const WORDS: [&str; 14] = ["a", "b", "orders", "labs", "raw", "r", "x1", "Größe", "表", "🙂n", "date", "type", "count", "Key"];

impl Query<'_> {
    fn token(&mut self, kind: u32, text: &str) {
        let start = self.f.source.len() as u32;
        self.f.source.extend(text.as_bytes());
        let end = self.f.source.len() as u32;
        self.f.recs.push(Rec { kind, depth: self.depth, start, end });
    }

    fn space(&mut self) {
        match self.seed.below(12) {
            0 => self.token(130, "/* ( é */"),
            1 => self.token(129, "\n  "),
            _ => self.token(129, " "),
        }
    }

    fn word(&mut self, text: &str) {
        let shown = if self.seed.one_in(4) { text.to_ascii_lowercase() } else { text.to_string() };
        self.token(BARE_WORD, &shown);
    }

    fn name(&mut self) {
        let w = self.seed.of(&WORDS);
        match self.seed.below(8) {
            0 => self.token(QUOTED, &format!("`{w}`")),
            1 => self.token(QUOTED, &format!("\"{w}\"")),
            2 if self.seed.one_in(8) => { let odd = self.seed.of(&["`", "\"", "``", "\"\"", "`a\"", "as"]); self.token(QUOTED, odd) }
            _ => self.token(BARE_WORD, w),
        }
    }

    /// A node over what `inside` makes: from its first token to its last; empty where it has none.
    fn node(&mut self, kind: u32, inside: impl FnOnce(&mut Self)) {
        if self.depth >= self.deepest {
            return inside(self);
        }
        let at = self.f.recs.len();
        self.f.recs.push(Rec { kind, depth: self.depth, start: NONE, end: 0 });
        self.depth += 1;
        inside(self);
        self.depth -= 1;
        let ends = |r: &&Rec| r.is_token();
        if let Some(first) = self.f.recs[at..].iter().find(ends).copied() {
            self.f.recs[at].start = first.start;
            self.f.recs[at].end = self.f.recs[at..].iter().rev().find(ends).expect("one").end;
        }
    }

    fn expression(&mut self, left: usize) {
        match self.seed.below(if left == 0 { 4 } else { 9 }) {
            0 => self.node(47, |q| q.name()),
            1 => self.node(0, |q| q.token(133, "42")),
            2 => self.node(0, |q| q.token(134, "'é text'")),
            3 => self.node(48, |q| { q.name(); q.token(128, "."); q.name() }),
            4 => self.node(55, |q| {
                q.expression(left - 1);
                q.space();
                let op = q.seed.below(15) as u32;
                q.token(143 + op, ["+", "-", "*", "/", "%", "=", "!=", "<", ">", "<=", ">=", "<=>", "||", "::", "->"][op as usize]);
                q.space();
                q.expression(left - 1)
            }),
            5 | 6 => {
                let kind = 43 + self.seed.below(3) as u32;
                self.node(kind, |q| {
                    if q.seed.one_in(2) { q.node(46, |q| q.name()) } else { q.name() }
                    q.token(137, "(");
                    q.node(32, |q| {
                        for i in 0..q.seed.below(4) {
                            if i > 0 { q.token(136, ","); q.space() }
                            q.expression(left - 1)
                        }
                    });
                    if !q.seed.one_in(12) { q.token(140, ")") }
                })
            }
            7 => self.node(0, |q| {
                q.token(138, "[");
                q.expression(left - 1);
                let close = if q.seed.one_in(10) { (140, ")") } else { (141, "]") };
                q.token(close.0, close.1)
            }),
            _ => self.subquery(left - 1),
        }
    }

    fn subquery(&mut self, left: usize) {
        self.node(30, |q| { q.token(137, "("); q.select(left); if !q.seed.one_in(15) { q.token(140, ")") } })
    }

    fn alias(&mut self, kind: u32) {
        self.space();
        self.node(kind, |q| { if q.seed.one_in(2) { q.word("AS"); q.space() } if !q.seed.one_in(15) { q.name() } })
    }

    fn table(&mut self, left: usize) {
        match self.seed.below(8) {
            0 if left > 0 => self.node(34, |q| { q.subquery(left - 1) }),
            1 if left > 0 => self.node(34, |q| { q.table(left - 1); if q.seed.one_in(2) { q.alias(35) } }),
            2 => self.node(45, |q| { q.name(); q.token(137, "("); q.token(133, "10"); q.token(140, ")") }),
            _ => self.node(33, |q| { for i in 0..q.seed.of(&[1, 1, 1, 2, 2, 3]) { if i > 0 { q.token(128, ".") } q.name() } }),
        }
        if !self.seed.one_in(3) { self.alias(35) }
    }

    fn join(&mut self, left: usize) {
        self.node(17, |q| {
            q.word("LEFT"); q.space(); q.word("JOIN"); q.space(); q.table(left);
            if q.seed.one_in(6) { q.space(); q.join(left / 2) }
            q.space();
            if q.seed.one_in(2) { q.node(28, |q| { q.word("ON"); q.space(); q.expression(left / 2) }) } else { q.word("USING"); q.space(); q.name() }
        })
    }

    fn select(&mut self, left: usize) {
        self.node(4, |q| {
            if q.seed.one_in(3) {
                q.node(14, |q| {
                    q.word("WITH"); q.space();
                    q.node(31, |q| for i in 0..1 + q.seed.below(3) {
                        if i > 0 { q.token(136, ","); q.space() }
                        q.node(29, |q| { q.name(); q.space(); q.word("AS"); q.space(); if left > 0 { q.subquery(left - 1) } else { q.expression(0) } })
                    })
                });
                q.space()
            }
            q.node(15, |q| {
                q.word("SELECT"); q.space();
                q.node(31, |q| for i in 0..1 + q.seed.below(4) {
                    if i > 0 { q.token(136, ","); q.space() }
                    if q.seed.one_in(5) { q.node(32, |q| { q.expression(left / 2); q.alias(36) }) } else { q.expression(left); if q.seed.one_in(2) { q.alias(36) } }
                })
            });
            q.space();
            if !q.seed.one_in(8) {
                q.node(16, |q| {
                    q.word("FROM"); q.space(); q.table(left);
                    for _ in 0..q.seed.below(3) { q.space(); if q.seed.one_in(3) { q.token(136, ","); q.space(); q.table(left / 2) } else { q.join(left / 2) } }
                });
            }
            if q.seed.one_in(4) { q.space(); q.join(left / 2) }
            for kind in [18, 19, 20, 21, 22] {
                if q.seed.one_in(4) { q.space(); q.node(kind, |q| { q.word("WHERE"); q.space(); if q.seed.one_in(8) { q.node(3, |_| ()) } else { q.expression(left / 2) } }) }
            }
            if q.seed.one_in(5) { q.space(); q.node(23, |q| { q.word("SETTINGS"); q.space(); q.node(24, |q| { q.token(BARE_WORD, "max_threads"); q.token(148, "="); q.token(133, "8") }) }) }
            if q.seed.one_in(5) { q.space(); q.node(26, |q| { q.word("FORMAT"); q.space(); q.token(BARE_WORD, "JSON") }) }
        })
    }

    /// A query over a query over a query, as deep as a table may be.
    fn nested(&mut self) {
        self.node(4, |q| {
            q.node(15, |q| { q.word("SELECT"); q.space(); q.node(31, |q| { if q.depth > 58 { q.well() } else { q.node(47, |q| q.name()) } q.alias(36) }) });
            q.space();
            q.node(16, |q| {
                q.word("FROM"); q.space();
                if q.depth > 58 {
                    q.node(33, |q| q.name());
                } else {
                    q.node(34, |q| q.node(30, |q| { q.token(137, "("); q.nested(); q.token(140, ")") }));
                }
                q.alias(35)
            })
        })
    }

    /// An expression in an expression, down to the last depth that there is.
    fn well(&mut self) {
        self.node(55, |q| if q.depth < 63 { q.well() } else { q.name() })
    }

    /// A query whose inner queries give the same alias to tables of their own, with the alias typed in each.
    fn one_alias(&mut self, alias: &str, left: usize) {
        let inner = |q: &mut Self| q.node(30, |q| { q.token(137, "("); q.one_alias(alias, left - 1); q.token(140, ")") });
        self.node(4, |q| {
            q.node(15, |q| {
                q.word("SELECT"); q.space();
                q.node(47, |q| { q.token(BARE_WORD, alias); q.token(128, "."); if q.seed.one_in(2) { q.name() } });
                if left > 0 { q.space(); q.token(136, ","); q.space(); inner(q) }
            });
            q.space();
            q.node(16, |q| {
                q.word("FROM"); q.space(); q.node(33, |q| q.name()); q.space();
                q.node(35, |q| { if q.seed.one_in(3) { q.word("AS"); q.space() } q.token(BARE_WORD, alias) })
            });
            if left > 0 && q.seed.one_in(2) { q.space(); q.node(19, |q| { q.word("WHERE"); q.space(); inner(q) }) }
        })
    }

    fn other_statement(&mut self) {
        match self.seed.below(3) {
            0 => self.node(5, |q| { q.word("INSERT"); q.space(); q.word("INTO"); q.space(); q.table(0); q.space(); q.node(27, |q| { q.word("FORMAT"); q.space(); q.token(BARE_WORD, "CSV") }) }),
            1 => self.node(6, |q| {
                q.word("CREATE"); q.space(); q.word("TABLE"); q.space();
                let kind = 50 + q.seed.below(5) as u32;
                q.node(kind, |q| q.name());
                q.token(137, "(");
                q.node(37, |q| {
                    q.name(); q.space();
                    q.node(38, |q| q.node(40, |q| { q.token(BARE_WORD, "Array"); q.token(137, "("); q.node(41, |q| q.node(42, |q| q.token(BARE_WORD, "date"))); q.token(140, ")") }));
                    q.space();
                    q.node(39, |q| { q.word("CODEC"); q.token(137, "("); q.token(BARE_WORD, "LZ4"); q.token(140, ")") })
                });
                q.token(140, ")");
                q.node(25, |q| { q.word("ENGINE"); q.token(148, "="); q.name() })
            }),
            _ => self.node(13, |q| { q.word("DESCRIBE"); q.space(); q.table(1); q.node(49, |q| { q.token(139, "{"); q.name(); q.token(128, ":"); q.node(40, |q| q.token(BARE_WORD, "UInt8")); q.token(142, "}") }) }),
        }
    }
}

pub fn empty() -> Frame {
    Frame { source: Vec::new(), recs: Vec::new(), message: Vec::new(), rest: 0, strays: Vec::new() }
}

pub fn query(seed: &mut Seed, statements: usize) -> Frame {
    let mut q = Query { f: empty(), depth: 0, deepest: 63, seed };
    q.node(1, |q| {
        for _ in 0..statements {
            if q.seed.one_in(6) { q.other_statement() } else { let left = q.seed.below(4); q.select(left) }
            q.token(128, ";");
            if q.seed.one_in(2) { q.space() }
        }
    });
    q.f
}

fn one_alias(seed: &mut Seed) -> Frame {
    let alias = seed.of(&WORDS);
    let left = 1 + seed.below(2);
    let mut q = Query { f: empty(), depth: 0, deepest: 63, seed };
    q.node(1, |q| q.one_alias(alias, left));
    q.f
}

/// Only what stands before some token, as a page is while it is typed: a node that has no token yet is empty.
fn half_typed(mut f: Frame, seed: &mut Seed) -> Frame {
    let tokens: Vec<usize> = (0..f.recs.len()).filter(|&i| f.recs[i].is_token()).collect();
    let cut = seed.of(&tokens);
    f.source.truncate(f.recs[cut].start as usize);
    f.recs.truncate(cut);
    if f.recs.is_empty() { f.recs.push(Rec { kind: 1, depth: 0, start: NONE, end: 0 }) }
    for i in 0..f.recs.len() {
        let below = f.recs[i + 1..].iter().take_while(|r| r.depth > f.recs[i].depth).filter(|r| r.is_token());
        let span = below.fold((NONE, 0), |(first, _), r| (first.min(r.start), r.end));
        if !f.recs[i].is_token() { (f.recs[i].start, f.recs[i].end) = span }
    }
    f
}

/// The kinds that a rule for the cursor or for the scope speaks of, and the tokens.
const RULED: [u32; 40] = [
    0, 1, 2, 3, 3, 4, 4, 4, 5, 5, 6, 9, 13, 14, 15, 16, 16, 17, 17, 18, 19, 20, 21, 22, 23, 24, 25, 26, 27, 28, 30, 33, 33, 34, 35, 37, 39, 43, 44, 46,
];
const RULED_TOKENS: [(u32, &str); 20] = [
    (131, "a"), (131, "b"), (131, "ON"), (131, "using"), (132, "`on`"), (128, "."), (128, "."), (128, ";"), (136, ","), (136, ","), (137, "("), (137, "("),
    (140, ")"), (129, " "), (129, " "), (130, "/* . */"), (131, ""), (131, "é"), (131, "As"), (133, "1"),
];

/// Any kinds in each other, with spans as the parser gives them: so that paths go deep and each rule meets each other.
fn tidy(seed: &mut Seed) -> Frame {
    fn branch(q: &mut Query, left: usize) {
        for _ in 0..1 + q.seed.below(4) {
            if left > 0 && q.seed.one_in(3) {
                let kind = if q.seed.one_in(4) { q.seed.below(56) as u32 } else { q.seed.of(&RULED) };
                q.node(kind, |q| if !q.seed.one_in(10) { branch(q, left - 1) });
            } else {
                let (kind, text) = q.seed.of(&RULED_TOKENS);
                q.token(kind, text);
            }
        }
    }
    let root = if seed.one_in(2) { 1 } else { seed.of(&RULED) };
    let mut q = Query { f: empty(), depth: 0, deepest: 63, seed };
    q.node(root, |q| { let left = 1 + q.seed.below(4); branch(q, left) });
    q.f
}

/// Subqueries in WITH items and elsewhere, in each other: what an inner query sees of the WITH names around it.
fn around(seed: &mut Seed) -> Frame {
    fn statement(q: &mut Query, left: usize) {
        let kind = q.seed.of(&[4, 4, 4, 5, 13, 0]);
        q.node(kind, |q| for _ in 0..1 + q.seed.below(3) {
            match q.seed.below(3) {
                0 => with(q, left),
                1 => { let clause = q.seed.of(&[15, 19, 16, 0]); q.node(clause, |q| subquery(q, left)) }
                _ => subquery(q, left),
            }
        });
    }
    fn with(q: &mut Query, left: usize) {
        q.node(14, |q| for _ in 0..1 + q.seed.below(3) { item(q, left, 2) });
    }
    fn item(q: &mut Query, left: usize, lists: usize) {
        if lists > 0 && q.seed.one_in(3) {
            let list = q.seed.of(&[31, 31, 32, 0]);
            return q.node(list, |q| for _ in 0..1 + q.seed.below(2) { item(q, left, lists - 1) });
        }
        q.node(29, |q| {
            if !q.seed.one_in(5) { let (kind, name) = q.seed.of(&[(131, "a"), (131, "b"), (132, "`c`"), (131, "as")]); q.token(kind, name) }
            if q.seed.one_in(2) { subquery(q, left) }
        });
    }
    fn subquery(q: &mut Query, left: usize) {
        if left == 0 { return q.token(131, "x") }
        q.node(30, |q| { if q.seed.one_in(3) { with(q, left - 1) } statement(q, left - 1) });
    }
    let root = seed.of(&[1, 1, 1, 30, 30, 4, 14, 0]);
    let mut q = Query { f: empty(), depth: 0, deepest: 63, seed };
    q.node(root, |q| for _ in 0..1 + q.seed.below(3) { if q.seed.one_in(4) { with(q, 3) } else { statement(q, 3) } });
    q.f
}

/// Words of the Rust's list and near ones, each below a parent that judges it.
pub fn words(all: &[&str], seed: &mut Seed) -> Frame {
    let mut q = Query { f: empty(), depth: 0, deepest: 63, seed };
    q.node(1, |q| for word in all {
        let mut text = word.to_string();
        match q.seed.below(6) {
            0 => text.push(q.seed.of(&['X', 'S', '1', 'ı'])),
            1 => { text.pop(); }
            2 => { let at = q.seed.below(text.len()); text.replace_range(at..at + 1, q.seed.of(&["Q", "_", "E", "ſ"])) }
            _ => (),
        }
        if q.seed.one_in(2) { text = text.to_ascii_lowercase() }
        let kind = if q.seed.one_in(2) { q.seed.of(&[0, 55]) } else { q.seed.below(56) as u32 };
        q.node(kind, |q| q.token(BARE_WORD, &text))
    });
    q.f
}

/// A page of statements of exactly n records, none deeper than said; at 63 queries over queries. A statement that does not fit is left out, and
/// after some of those spaces fill up.
pub fn page(seed: &mut Seed, n: usize, deepest: u32) -> Frame {
    let mut q = Query { f: empty(), depth: 0, deepest, seed };
    q.node(1, |q| {
        let mut misfits = 0;
        if deepest == 63 && n == 64 { q.well() } // the one way to be so deep with so few
        while misfits < 60 {
            let (records, bytes) = (q.f.recs.len(), q.f.source.len());
            if deepest == 63 && misfits < 20 { q.nested() } else { let left = q.seed.below(4 - misfits / 20); q.select(left) }
            q.token(128, ";");
            if q.f.recs.len() > n || q.f.source.len() > 60000 {
                q.f.recs.truncate(records);
                q.f.source.truncate(bytes);
                misfits += 1;
            }
        }
        while q.f.recs.len() < n { q.token(129, " ") }
    });
    q.f
}

// ---- random admitted trees

const TEXTS: [&str; 40] = [
    "AS", "as", "aS", "a", "b", "on", "USING", "ON", ".", ";", ",", "(", ")", "[", "]", "{", "}", "`q`", "\"q\"", "`q\"", "\"q`", "``", "\"\"", "`é`", "select", "Select",
    "MATERIALIZED", "uncompressed", "id", "x", "é", "表", "🙂", "ı", "ſelect", "UNCOMPRESSEDX", "HIERARCHICAL", "to", "0", "asc",
];

pub fn random(seed: &mut Seed, most: usize, deepest: u32) -> Frame {
    let mut f = empty();
    f.recs.push(Rec { kind: seed.of(&[1, 1, 2, 4, 16, 17, 14, 15, 30, 0]), depth: 0, start: 0, end: 0 });
    let (mut allowed, mut used) = (1, 1);
    // half of the deep trees go straight down first, so that depth 63 is reached
    let straight = deepest == 63 && seed.one_in(2);
    while f.recs.len() < most && f.source.len() < 60000 {
        let depth = if straight && f.recs.len() < 70 { allowed.min(deepest) } else { let d = 1 + seed.below(allowed.min(deepest) as usize) as u32; if seed.one_in(3) { d } else { d.max(used) } };
        used = depth.min(allowed);
        let depth = used.min(deepest);
        if seed.below(5) < 2 || straight && f.recs.len() < 64 {
            let kind = if seed.one_in(3) { seed.below(56) as u32 } else { seed.of(&[14, 15, 16, 17, 29, 30, 31, 32, 33, 33, 34, 35, 35, 36, 43, 4, 28, 46, 55]) };
            f.recs.push(Rec { kind, depth, start: 0, end: 0 });
            allowed = depth + 1;
        } else {
            for _ in 0..seed.below(3) / 2 { f.source.extend(seed.of(&[" ", "é", "x"]).as_bytes()) }
            let start = f.source.len() as u32;
            let kind = if seed.one_in(2) { 128 + seed.below(30) as u32 } else { seed.of(&[BARE_WORD, BARE_WORD, QUOTED, 137, 140]) };
            let text = if seed.one_in(40) { seed.of(&["`", "\""]) } else if seed.one_in(12) { "" } else { seed.of(&TEXTS) };
            f.source.extend(text.as_bytes());
            f.recs.push(Rec { kind, depth, start, end: f.source.len() as u32 });
            allowed = depth;
        }
    }
    f.source.extend(seed.of(&["", "", " ", "é"]).as_bytes());
    let len = f.source.len();
    // at times bytes that are no text
    if seed.one_in(10) && len > 0 {
        for _ in 0..1 + seed.below(4) { let at = seed.below(len); f.source[at] = 128 + seed.below(128) as u8 }
    }
    for r in f.recs.iter_mut().filter(|r| r.kind < 128) {
        (r.start, r.end) = match seed.below(6) {
            0 => (NONE, 0),
            1 => (1, 0),
            2 => (NONE, NONE),
            3 => (seed.0 as u32, (seed.0 >> 32) as u32),
            _ => { let a = seed.below(len + 3); (a as u32, (a + seed.below(len + 3)) as u32) }
        };
    }
    f
}

// ---- damaged copies: one for each refusal

fn damage(f: &mut Frame, seed: &mut Seed) {
    let i = seed.below(f.recs.len());
    let token = (0..f.recs.len()).filter(|&i| f.recs[i].is_token()).last();
    match seed.below(15) {
        0 => f.rest = 1 + seed.below(19),
        1 => { f.recs.clear(); f.rest = seed.of(&[0, 0, 3]) }
        2 => { let r = *f.recs.last().expect("one"); let n = seed.of(&[4096, 4097, 4200]); while f.recs.len() < n { f.recs.push(Rec { kind: 0, ..r }) } }
        3 => f.source.resize(seed.of(&[65536, 65537, 70000]), b' '),
        4 => f.message = vec![b' '; seed.of(&[4096, 4097])],
        5 => f.recs[i].kind = seed.of(&[56, 100, 127, 158, 255, 256, 257, 131 + 256, NONE]),
        6 => f.recs[i].depth = seed.of(&[0, 1, 2, 3, 63, 64, 65, 256, NONE]),
        7 => f.recs[0].kind = BARE_WORD,
        8 => {
            let last = seed.of(&[62, 63, 64, 65]);
            f.recs.truncate(1);
            for d in 1..=last { f.recs.push(Rec { kind: if seed.one_in(200) { BARE_WORD } else { 0 }, depth: d, start: 0, end: 0 }) }
        }
        9 => { if let Some(i) = token { f.recs[i].end = f.source.len() as u32 + seed.below(3) as u32 } }
        10 => { f.recs[i].start = seed.below(f.source.len() + 2) as u32; f.recs[i].end = seed.below(f.source.len() + 2) as u32 }
        11 => { f.recs[i].start = f.recs[i].start.wrapping_add(seed.of(&[1, NONE, 2])) }
        // another parent: a number near it or far, the record before, the record itself, a later one, the same with a second fault of the record
        12 => { let p = f.parents()[i]; f.strays.push((i, p.wrapping_add(seed.of(&[1, NONE, 256, 65536, 1 << 24])))) }
        13 => { let p = seed.of(&[0, NONE, i as u32, (i as u32).wrapping_sub(1), i as u32 + 1, f.recs.len() as u32]); f.strays.push((i, p)) }
        _ => {
            let p = seed.below(f.recs.len()) as u32;
            f.strays.push((i, p));
            match seed.below(4) {
                0 => f.recs[i].depth = seed.of(&[0, 1, 2, 3, 63, 64]),
                1 => f.recs[i].end = f.source.len() as u32 + 1,
                2 => f.recs[i].kind = seed.of(&[56, BARE_WORD, 4]),
                _ => {}
            }
        }
    }
}
