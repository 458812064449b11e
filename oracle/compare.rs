//! Both sides on one frame: every reply and every byte of every buffer.
use crate::around;
use crate::desk::{self, List, Of, SCOPE};
use crate::frames::{Frame, NONE};
use crate::rust::{in_ascii, without_lone_quotes, Asked, Said};
use std::sync::atomic::{AtomicUsize, Ordering};

/// What was seen on the way.
#[derive(Default)]
pub struct Tally {
    pub rust_asked: usize,
    pub refused: [usize; 13],
    pub no_text: usize,
    pub stopped: usize,
    pub lists: usize,
    pub entries: usize,
    /// WITH names that a root sees of the queries around it
    pub seen: usize,
    pub contexts: [usize; 13],
    pub glanced: usize,
}

/// Which of our answers is falsified, to see that it is found: 0 none, 1 the check, 2 the hint, 3 the statement,
/// 4 the cursor's root, then the count, bytes and guard of each list of a table or root, the context, each list at the cursor, what is above a
/// record, the contexts at many offsets, and everything at a cursor in one call; last, what glance prints.
pub static FLIP: AtomicUsize = AtomicUsize::new(0);
pub const FLIPS: usize = 4 + 3 * 14 + 1;
const EVERYTHING_FLIP: usize = 5 + 3 * 13;

pub fn flipped(n: usize) -> bool {
    FLIP.load(Ordering::Relaxed) == n
}

/// Document 01's refusals 1 to 6 and document 02's 12, written anew from their words.
pub fn refusal(f: &Frame, message: usize) -> Option<(u32, u32)> {
    let bytes = 20 * f.recs.len() + f.rest;
    if bytes == 0 || bytes % 20 != 0 || bytes / 20 > 4096 {
        return Some((1, 0));
    }
    if f.source.len() > 65536 || message > 4096 {
        return Some((2, 0));
    }
    let carried = f.parents();
    let mut end = 0;
    for (i, r) in f.recs.iter().enumerate() {
        let node = r.kind <= 55;
        let token = (128..=157).contains(&r.kind);
        let misplaced = match i.checked_sub(1).map(|p| f.recs[p]) {
            None => !node || r.depth != 0,
            Some(p) => r.depth == 0 || r.depth as u64 > p.depth as u64 + 1 || p.is_token() && r.depth > p.depth,
        };
        let parent = f.recs[..i].iter().rposition(|p| p.depth.checked_add(1) == Some(r.depth)).unwrap_or(0);
        let number = if !node && !token {
            3
        } else if misplaced {
            4
        } else if r.depth > 63 {
            5
        } else if carried[i] as usize != parent {
            12
        } else if token && (r.start > r.end || r.end as usize > f.source.len() || r.start < end) {
            6
        } else {
            if token { end = r.end }
            continue;
        };
        return Some((number, i as u32));
    }
    None
}

const GUARD: usize = 24;

/// Asks for a list in a buffer of `room` bytes that has guard bytes on both sides, and compares the reply and all bytes.
fn ask(q: List, f: &Frame, table: &[u8], of: Of, room: usize, refused: Option<(u32, u32)>, entries: &[Vec<u32>]) -> Result<(), String> {
    let mut all: Vec<u8> = (0..GUARD + room + GUARD).map(|i| (i * 37 + 11) as u8).collect();
    let mut expected = all.clone();
    let need = entries.len() * q.width();
    let reply = match refused {
        Some(r) => r,
        None if need > room => (7, entries.len() as u32),
        None => {
            for (i, n) in entries.iter().flatten().enumerate() {
                expected[GUARD + 4 * i..GUARD + 4 * i + 4].copy_from_slice(&n.to_le_bytes());
            }
            (0, entries.len() as u32)
        }
    };
    let mut got = desk::list(q, table, &f.source, of, &mut all[GUARD..GUARD + room]);
    let at_cursor = SCOPE.contains(&q) && matches!(of, Of::Cursor(_));
    let flip = 5 + 3 * (q as usize + if q as usize >= List::Above as usize { 4 } else if at_cursor { 5 } else { 0 });
    if flipped(flip) { got.1 ^= 1 }
    if flipped(flip + 1) && got.0 == 0 && got.1 > 0 { all[GUARD + got.1 as usize * q.width() - 1] ^= 1 }
    if flipped(flip + 2) { all[GUARD + room] ^= 1 }
    if got != reply {
        return Err(format!("{q:?} of {of:?} in {room} bytes: ours {got:?}, the Rust {reply:?}; its entries {entries:?}"));
    }
    if all != expected {
        let at = (0..all.len()).find(|&i| all[i] != expected[i]).expect("one");
        return Err(format!("{q:?} of {of:?} in {room} bytes: byte {} differs; the Rust's entries {entries:?}", at as i64 - GUARD as i64));
    }
    Ok(())
}

/// The same in every room: more than enough, exactly enough, one byte short, none.
fn in_rooms(q: List, f: &Frame, table: &[u8], of: Of, entries: &[Vec<u32>], tally: &mut Tally) -> Result<(), String> {
    let need = entries.len() * q.width();
    tally.lists += 1;
    tally.entries += entries.len();
    // room for two entries of each record is more than any list needs
    for room in [need + 13, need, need.saturating_sub(1), 0, 104 * f.recs.len()] {
        ask(q, f, table, of, room, None, entries)?;
    }
    Ok(())
}

fn roots(f: &Frame) -> Vec<usize> {
    let nodes: Vec<usize> = (0..f.recs.len()).filter(|&i| !f.recs[i].is_token()).collect();
    let step = if f.recs.len() <= 40 { 1 } else { nodes.len().div_ceil(6) };
    nodes.into_iter().step_by(step).collect()
}

fn offsets(f: &Frame) -> Vec<u32> {
    let n = f.source.len() as u32;
    let mut out = vec![0, n / 3, n / 2, n.saturating_sub(1), n, n + 1, NONE];
    out.extend(f.recs.iter().step_by(f.recs.len().div_ceil(12)).map(|r| r.end));
    out
}

/// The cursor's root, written anew from document 01: the Rust has no word for it.
fn root_at(f: &Frame, statement: u32, offset: u32) -> u32 {
    let holds = |i: usize| !f.recs[i].is_token() && f.recs[i].start <= offset && offset <= f.recs[i].end;
    let (mut at, mut deepest) = (0, None);
    loop {
        if f.recs[at].kind == 30 { deepest = Some(at as u32) }
        let end = (at + 1..f.recs.len()).find(|&j| f.recs[j].depth <= f.recs[at].depth).unwrap_or(f.recs.len());
        match (at + 1..end).find(|&j| f.recs[j].depth == f.recs[at].depth + 1 && holds(j)) {
            Some(child) => at = child,
            None => return deepest.unwrap_or(if statement == NONE { 0 } else { statement }),
        }
    }
}

/// The four lists of a root, in the order of `SCOPE`; a stop of the Rust is counted.
fn scope(rust: &Asked, root: usize, tally: &mut Tally) -> Result<[Vec<Vec<u32>>; 4], String> {
    match rust.scope(root) {
        Said::Answer(lists) => lists,
        Said::Stopped => {
            tally.stopped += 1;
            unstopped(rust.frame, root)
        }
    }
}

/// Everything at a cursor in one call, in five buffers of these rooms with guard bytes on both sides: it gives the entries of each, or is refused for the first
/// that has no room, and then touches none.
fn together(f: &Frame, table: &[u8], offset: u32, rooms: [usize; 5], refused: Option<(u32, u32)>, entries: &[Vec<Vec<u32>>; 5]) -> Result<(), String> {
    let needs = [0, 1, 2, 3, 4].map(|i| 4 * entries[i].iter().map(Vec::len).sum::<usize>());
    let mut all = rooms.map(|room| (0..GUARD + room + GUARD).map(|i| (i * 41 + 5) as u8).collect::<Vec<u8>>());
    let mut expected = all.clone();
    let reply = refused.or((0..5).find(|&i| rooms[i] < needs[i]).map(|i| (7, entries[i].len() as u32))).unwrap_or((0, 1));
    if reply.0 == 0 {
        for (bytes, entries) in expected.iter_mut().zip(entries) {
            for (i, n) in entries.iter().flatten().enumerate() {
                bytes[GUARD + 4 * i..GUARD + 4 * i + 4].copy_from_slice(&n.to_le_bytes());
            }
        }
    }
    let mut lent = all.iter_mut().zip(rooms).map(|(bytes, room)| &mut bytes[GUARD..GUARD + room]);
    let out = [0; 5].map(|_| lent.next().expect("five"));
    let mut got = desk::everything(table, &f.source, offset, out);
    if flipped(EVERYTHING_FLIP) { got.1 ^= 1 }
    if flipped(EVERYTHING_FLIP + 1) && got.0 == 0 { all[0][GUARD + needs[0] - 1] ^= 1 }
    if flipped(EVERYTHING_FLIP + 2) { all[4][GUARD + rooms[4]] ^= 1 }
    if got != reply {
        return Err(format!("everything at {offset} in {rooms:?} bytes: ours {got:?}, singly {reply:?}; its entries {entries:?}"));
    }
    match (0..5).find(|&i| all[i] != expected[i]) {
        Some(i) => Err(format!("everything at {offset} in {rooms:?} bytes: buffer {i} differs; its entries {entries:?}")),
        None => Ok(()),
    }
}

/// The same in rooms that are enough, exactly enough, and short for each buffer in turn, alone and with those behind it.
fn everything(f: &Frame, table: &[u8], offset: u32, context: &[u32], root: u32, lists: [Vec<Vec<u32>>; 4]) -> Result<(), String> {
    let entry: Vec<u32> = context.iter().copied().chain([root]).chain(lists.iter().map(|l| l.len() as u32)).collect();
    let [w, a, c, r] = lists;
    let entries = [vec![entry], w, a, c, r];
    let needs = [0, 1, 2, 3, 4].map(|i| 4 * entries[i].iter().map(Vec::len).sum::<usize>());
    together(f, table, offset, needs.map(|n| n + 13), None, &entries)?;
    together(f, table, offset, needs, None, &entries)?;
    for short in 0..5 {
        let alone = |i: usize| if i == short { needs[i].saturating_sub(1) } else { needs[i] };
        let behind = |i: usize| if i >= short { needs[i] / 2 } else { needs[i] };
        together(f, table, offset, [0, 1, 2, 3, 4].map(alone), None, &entries)?;
        together(f, table, offset, [0, 1, 2, 3, 4].map(behind), None, &entries)?;
    }
    Ok(())
}

/// Every question at a cursor.
fn cursor(rust: &Asked, f: &Frame, table: &[u8], offset: u32, tally: &mut Tally) -> Result<(), String> {
    let statement = rust.statement(offset);
    let mut ours = desk::statement(table, &f.source, offset);
    if flipped(3) { ours.1 ^= 1 }
    if ours != (0, statement) {
        return Err(format!("statement at {offset}: ours {ours:?}, the Rust {statement}"));
    }
    let root = root_at(f, statement, offset);
    let mut ours = desk::root(table, &f.source, offset);
    if flipped(4) { ours.1 ^= 1 }
    if ours != (0, root) {
        return Err(format!("root at {offset}: ours {ours:?}, by document 01 {root}"));
    }
    let context = rust.context(offset)?;
    tally.contexts[context[0] as usize] += 1;
    in_rooms(List::Context, f, table, Of::Cursor(offset), &[context.to_vec()], tally)?;
    let mut lists = scope(rust, root as usize, tally)?;
    lists[0].extend(around(rust, root as usize, tally)?);
    for (q, entries) in SCOPE.into_iter().zip(&lists) {
        in_rooms(q, f, table, Of::Cursor(offset), entries, tally)?;
    }
    everything(f, table, offset, &context, root, lists)
}

/// Many cursors in one call, where the Rust says so of each offset: in order and backwards, some twice, up to 64; and lists of offsets that are refused.
fn many(f: &Frame, table: &[u8], refused: Option<(u32, u32)>, at: &[(u32, Vec<u32>)], tally: &mut Tally) -> Result<(), String> {
    let bytes = |n: usize| -> Vec<u8> { at.iter().map(|a| a.0).chain([0, NONE, 1]).cycle().take(n).flat_map(u32::to_le_bytes).collect() };
    let early = refused.filter(|r| r.0 <= 2);
    for (whole, over) in [(0, 1), (1, 1), (3, 3), (64, 2), (65, 0), (4096, 0)] {
        let mut offsets = bytes(whole);
        offsets.resize(4 * whole + over, 7);
        for room in [0, 16 * whole + 16] {
            ask(List::Contexts, f, table, Of::Cursors(&offsets), room, early.or(Some((10, 0))), &[])?;
        }
    }
    if refused.is_some() {
        for whole in [0, 1, 64] {
            ask(List::Contexts, f, table, Of::Cursors(&bytes(whole)), 64, refused, &[])?;
        }
        return Ok(());
    }
    let back: Vec<_> = at.iter().rev().cycle().take(64).cloned().collect();
    for asked in [&[], &at[..1], at, &back] {
        let offsets: Vec<u8> = asked.iter().flat_map(|a| a.0.to_le_bytes()).collect();
        let entries: Vec<Vec<u32>> = asked.iter().map(|a| a.1.clone()).collect();
        in_rooms(List::Contexts, f, table, Of::Cursors(&offsets), &entries, tally)?;
    }
    Ok(())
}

/// What a root sees of the WITH names around it, nearest first.
fn around(rust: &Asked, root: usize, tally: &mut Tally) -> Result<Vec<Vec<u32>>, String> {
    let mut out = Vec::new();
    for outer in around::enclosing(rust.frame, root) {
        let seen = around::seen(rust.frame, outer, root);
        let [with_names, ..] = scope(&Asked::new(&seen).expect("as the frame itself"), outer, tally)?;
        tally.seen += with_names.len();
        out.extend(with_names);
    }
    Ok(out)
}

/// The first difference on a frame, if there is one.
pub fn difference(f: &Frame, tally: &mut Tally) -> Result<(), String> {
    let table = f.table();
    let refused = refusal(f, 0);
    let mut ours = desk::check(&table, &f.source);
    if flipped(1) { ours.1 ^= 1 }
    if ours != refused.unwrap_or((0, 0)) {
        return Err(format!("check: ours {ours:?}, by document 01 {refused:?}"));
    }
    let mut hint = desk::hint(&table, &f.source, &f.message);
    if flipped(2) { hint.1 ^= 1 }
    if let Some(r) = refusal(f, f.message.len()) {
        tally.refused[r.0 as usize] += 1;
        if hint != r {
            return Err(format!("hint: ours {hint:?}, by document 01 {r:?}"));
        }
    }
    if refused.is_some() {
        for q in [List::Classes, List::Openers, List::Context, List::Above].iter().chain(&SCOPE) {
            for of in [Of::Root(0), Of::Root(1), Of::Root(f.recs.len() as u32), Of::Cursor(0), Of::Cursor(NONE)] {
                ask(*q, f, &table, of, 0, refused, &[])?;
                ask(*q, f, &table, of, 64, refused, &[])?;
            }
        }
        many(f, &table, refused, &[], tally)?;
        for rooms in [[0; 5], [64; 5]] {
            together(f, &table, 0, rooms, refused, &Default::default())?;
        }
        for (name, ours) in [("statement", desk::statement(&table, &f.source, 0)), ("root", desk::root(&table, &f.source, 0))] {
            if Some(ours) != refused {
                return Err(format!("{name}: ours {ours:?}, by document 01 {refused:?}"));
            }
        }
        return Ok(());
    }
    for q in SCOPE {
        for root in [f.recs.len(), NONE as usize, f.recs.len() + 4096].into_iter().chain((0..f.recs.len()).filter(|&i| f.recs[i].is_token()).take(2)) {
            ask(q, f, &table, Of::Root(root as u32), 64, Some((8, 0)), &[])?;
        }
    }
    for record in [f.recs.len(), NONE as usize] {
        ask(List::Above, f, &table, Of::Root(record as u32), 64, Some((8, 0)), &[])?;
    }
    for record in (0..f.recs.len()).step_by(f.recs.len().div_ceil(40)) {
        let above: Vec<Vec<u32>> = around::above(f, record).into_iter().map(|i| vec![i as u32]).collect();
        in_rooms(List::Above, f, &table, Of::Root(record as u32), &above, tally)?;
    }
    let plain = in_ascii(f);
    let rust = match Asked::new(f) {
        Some(asked) => asked,
        None => {
            tally.no_text += 1;
            Asked::new(&plain).expect("ASCII")
        }
    };
    tally.rust_asked += 1;
    if f.message.len() <= 4096 {
        let expected = rust.hint(std::str::from_utf8(&f.message).expect("ASCII"))?;
        if hint != (0, expected) {
            return Err(format!("hint: ours {hint:?}, the Rust {expected}"));
        }
    }
    in_rooms(List::Classes, f, &table, Of::Root(0), &rust.classes(), tally)?;
    in_rooms(List::Openers, f, &table, Of::Root(0), &rust.openers()?, tally)?;
    for root in roots(f) {
        for (q, entries) in SCOPE.into_iter().zip(scope(&rust, root, tally)?) {
            in_rooms(q, f, &table, Of::Root(root as u32), &entries, tally)?;
        }
    }
    let mut at = Vec::new();
    for offset in offsets(f) {
        cursor(&rust, f, &table, offset, tally)?;
        at.push((offset, rust.context(offset)?.to_vec()));
    }
    many(f, &table, None, &at, tally)
}

/// A lone quote mark stops the Rust, and ours keeps it: what the Rust says with a letter in its place.
fn unstopped(f: &Frame, root: usize) -> Result<[Vec<Vec<u32>>; 4], String> {
    let other = without_lone_quotes(f);
    let asked = Asked::new(&other).expect("as the frame itself");
    match asked.scope(root) {
        Said::Answer(lists) if other.source != f.source => lists,
        _ => Err(format!("the Rust stopped at root {root} with no lone quote mark")),
    }
}

/// The frame without records that the difference does not need.
pub fn reduced(mut f: Frame, differs: impl Fn(&Frame) -> bool) -> Frame {
    let mut i = f.recs.len();
    while i > 0 {
        i = (i - 1).min(f.recs.len().saturating_sub(1));
        let Some(r) = f.recs.get(i).copied() else { break };
        let end = (i + 1..f.recs.len()).find(|&j| f.recs[j].depth <= r.depth).unwrap_or(f.recs.len());
        let mut without = f.clone();
        without.recs.drain(i..end);
        let mut lifted = f.clone();
        lifted.recs.remove(i);
        for below in &mut lifted.recs[i..end - 1] {
            below.depth = below.depth.wrapping_sub(1);
        }
        if let Some(smaller) = [without, lifted].into_iter().find(&differs) {
            f = smaller;
            i = f.recs.len();
        }
    }
    f
}
