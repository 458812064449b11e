//! The driver for a counter of instructions: on pages of several sizes and depths it asks each question of both sides, between two marks.
use crate::desk::{self, List, Of, SCOPE};
use crate::frames::{self, Frame, Rec, Seed};
use crate::rust::{tree_by, without_lone_quotes, Asked};
use std::cell::RefCell;
use std::hint::black_box;

/// How many records and how deep. The first is flat; the last of 64 records is a chain of nodes.
const PAGES: [(usize, u32); 10] = [(64, 1), (64, 4), (1024, 4), (4096, 4), (64, 10), (1024, 10), (4096, 10), (64, 63), (1024, 63), (4096, 63)];
const REPEATS: usize = 10;
const MESSAGE: &str = "expected )";

/// A page of statements of so many records, exactly so deep. It has few spaces that only fill it up and, but for queries over queries, a
/// table for every hundred records.
fn page(records: usize, depth: u32) -> Frame {
    let fits = |f: &Frame| {
        let filling = f.recs.iter().rev().take_while(|r| r.kind == 129).count();
        let tables = f.recs.iter().filter(|r| r.kind == frames::TABLE_IDENTIFIER).count();
        filling <= records / 8 && (depth == 63 || tables >= records / 100) && f.recs.iter().map(|r| r.depth).max() == Some(depth)
    };
    let f = (1..2000).map(|seed| frames::page(&mut Seed(seed), records, depth)).find(fits).expect("one");
    without_lone_quotes(&f)
}

/// A mark that the counter sees: the system call getppid.
fn mark() {
    black_box(std::os::unix::process::parent_id());
}

/// Asked once before, so that what only a first call costs is not counted; then between two marks. What was measured is printed, a word for each column.
fn counted(row: &str, side: &str, ask: &dyn Fn() -> usize) {
    black_box(ask());
    mark();
    for _ in 0..REPEATS {
        black_box(ask());
    }
    mark();
    println!("{row} {side}");
}

/// The check on the table's bytes, as one would write it in Rust.
fn check(table: &[u8], source: usize) -> usize {
    if table.is_empty() || table.len() % 20 != 0 || table.len() > 81920 {
        return 1;
    }
    if source > 65536 {
        return 2;
    }
    let number = |r: &[u8], i: usize| u32::from_le_bytes([r[4 * i], r[4 * i + 1], r[4 * i + 2], r[4 * i + 3]]);
    let (mut before, mut token_before, mut end_before) = (0, false, 0);
    let mut last = [0; 65];
    for (i, r) in table.chunks_exact(20).enumerate() {
        let (kind, depth, start, end, parent) = (number(r, 0), number(r, 1), number(r, 2), number(r, 3), number(r, 4));
        let token = kind >= 128;
        if kind > 157 || !token && kind > 55 {
            return 3 + (i << 4);
        }
        if i == 0 && (token || depth != 0) || i > 0 && (depth == 0 || depth > before + 1 || token_before && depth > before) {
            return 4 + (i << 4);
        }
        if depth > 63 {
            return 5 + (i << 4);
        }
        if parent != last[depth as usize] {
            return 12 + (i << 4);
        }
        last[depth as usize + 1] = i as u32;
        if token {
            if start > end || end as usize > source || start < end_before {
                return 6 + (i << 4);
            }
            end_before = end;
        }
        (before, token_before) = (depth, token);
    }
    0
}

/// The Rust's tree, made from the table's bytes and freed again: what a host without ours does before it can ask.
fn tree_from(table: &[u8]) -> usize {
    let number = |i: usize, field: usize| u32::from_le_bytes(table[20 * i + 4 * field..20 * i + 4 * field + 4].try_into().expect("four bytes"));
    let rec = |i: usize| Rec { kind: number(i, 0), depth: number(i, 1), start: number(i, 2), end: number(i, 3) };
    black_box(tree_by(&rec, table.len() / 20)).children.len()
}

fn measure_page(records: usize, depth: u32) {
    let f = page(records, depth);
    let table = f.table();
    let rust = Asked::new(&f).expect("a text");
    let end = f.source.len() as u32;
    let middle = end / 2;
    let row = |question: &str| format!("{question} {records} {depth}");
    let out = RefCell::new(vec![0; 1 << 18]);
    let list = |q: List, of: Of| desk::list(q, black_box(&table), black_box(&f.source), of, &mut out.borrow_mut()).1 as usize;
    let both = |question: &str, ours: &dyn Fn() -> usize, rust: &dyn Fn() -> usize| {
        counted(&row(question), "ours", ours);
        counted(&row(question), "rust", rust);
    };
    counted(&row("nothing"), "ours", &|| 0);
    counted(&row("tree"), "rust", &|| tree_from(black_box(&table)));
    both("check", &|| desk::check(black_box(&table), black_box(&f.source)).1 as usize, &|| check(black_box(&table), black_box(&f.source).len()));
    both("classes", &|| list(List::Classes, Of::Root(0)), &|| rust.measure(List::Classes, 0));
    both("openers", &|| list(List::Openers, Of::Root(0)), &|| rust.measure(List::Openers, 0));
    both("bracket_hint", &|| desk::hint(black_box(&table), &f.source, MESSAGE.as_bytes()).1 as usize, &|| rust.hint_once(black_box(MESSAGE)));
    both("four_lists", &|| SCOPE.map(|q| list(q, Of::Root(0))).iter().sum(), &|| rust.measure(List::TableRefs, 0));
    counted(&row("references_alone"), "ours", &|| list(List::TableRefs, Of::Root(0)));
    for (place, at) in [("top", 0), ("middle", middle), ("end", end)] {
        both(&format!("context,_{place}"), &|| list(List::Context, Of::Cursor(at)), &|| rust.measure(List::Context, black_box(at)));
    }
    // spread over the page; in one call, beside as many of the Rust's, and singly
    for cursors in [1, 8, 64] {
        let at: Vec<u32> = (0..cursors).map(|i| (end as u64 * (2 * i + 1) / (2 * cursors)) as u32).collect();
        let bytes: Vec<u8> = at.iter().flat_map(|o| o.to_le_bytes()).collect();
        let single = |o: u32| list(List::Context, Of::Cursor(o));
        both(&format!("{cursors}_cursors"), &|| list(List::Contexts, Of::Cursors(black_box(&bytes))), &|| at.iter().map(|&o| rust.measure(List::Context, black_box(o))).sum());
        counted(&row(&format!("{cursors}_cursors,_singly")), "ours", &|| at.iter().map(|&o| single(o)).sum());
    }
    both("enclosing_statement", &|| desk::statement(black_box(&table), &f.source, middle).1 as usize, &|| rust.statement_once(black_box(middle)));
    counted(&row("cursor's_root"), "ours", &|| desk::root(black_box(&table), &f.source, middle).1 as usize);
    counted(&row("four_lists_at_cursor"), "ours", &|| SCOPE.map(|q| list(q, Of::Cursor(middle))).iter().sum());
    let lent = RefCell::new([0; 5].map(|_| vec![0; 1 << 18]));
    counted(&row("everything_at_cursor"), "ours", &|| {
        let [o, w, a, c, r] = &mut *lent.borrow_mut();
        desk::everything(black_box(&table), black_box(&f.source), middle, [o, w, a, c, r]).1 as usize
    });
}

/// The words of typical SQL, what stands between quotes aside, below a node of the kind.
fn typical(parent: u32) -> Frame {
    let mut f = frames::empty();
    for text in include_str!("words.sql").split('\'').step_by(2) {
        for word in text.split(|c: char| !c.is_ascii_alphanumeric() && c != '_').filter(|w| w.starts_with(|c: char| !c.is_ascii_digit())) {
            let start = f.source.len() as u32;
            f.source.extend(word.as_bytes());
            f.recs.push(Rec { kind: frames::BARE_WORD, depth: 2, start, end: f.source.len() as u32 });
            f.source.push(b' ');
        }
    }
    let end = f.source.len() as u32;
    f.recs.splice(0..0, [Rec { kind: 1, depth: 0, start: 0, end }, Rec { kind: parent, depth: 1, start: 0, end }]);
    f
}

/// The classes of words that are looked for among the keywords, below an Expression, and of the same words below a DataType, where they are not.
fn measure_words() {
    for (question, parent) in [("words_looked_for", 55), ("words_not", 40)] {
        let f = typical(parent);
        let table = f.table();
        let rust = Asked::new(&f).expect("a text");
        let out = RefCell::new(vec![0; 1 << 18]);
        let row = format!("{question} {} 2", f.recs.len() - 2);
        counted(&row, "ours", &|| desk::list(List::Classes, black_box(&table), black_box(&f.source), Of::Root(0), &mut out.borrow_mut()).1 as usize);
        counted(&row, "rust", &|| rust.measure(List::Classes, 0));
    }
}

pub fn measure() {
    for (records, depth) in PAGES {
        measure_page(records, depth);
    }
    measure_words();
}
