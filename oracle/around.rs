//! The WITH names that a subquery sees of the queries around it, written anew from document 02, §4: the Rust has no word for them. What is left
//! out is taken out of the frame, and the Rust is asked for the WITH names of each enclosing root in what is left.
use crate::frames::Frame;

/// The nodes above a record, nearest first.
pub fn above(f: &Frame, record: usize) -> Vec<usize> {
    let mut out = Vec::new();
    let mut at = record;
    while f.recs[at].depth > 0 {
        at = (0..at).rev().find(|&j| f.recs[j].depth + 1 == f.recs[at].depth).expect("a parent");
        out.push(at);
    }
    out
}

fn end_of(f: &Frame, record: usize) -> usize {
    (record + 1..f.recs.len()).find(|&j| f.recs[j].depth <= f.recs[record].depth).unwrap_or(f.recs.len())
}

/// The roots around a root, nearest first. Only a subquery has any.
pub fn enclosing(f: &Frame, root: usize) -> Vec<usize> {
    let kind = |i: usize| f.recs[i].kind;
    if kind(root) != 30 {
        return Vec::new();
    }
    let around = above(f, root);
    let mut out: Vec<usize> = around.iter().copied().filter(|&i| kind(i) == 30).collect();
    let outermost = *out.last().unwrap_or(&root);
    let last = above(f, outermost).into_iter().find(|&i| (4..=13).contains(&kind(i))).unwrap_or(0);
    if last != root && !out.contains(&last) {
        out.push(last);
    }
    out
}

/// The items of a WITH clause in reading order: its child items, also through ColumnList.
fn items(f: &Frame, clause: usize) -> Vec<usize> {
    let mut out = Vec::new();
    let mut i = clause + 1;
    while i < end_of(f, clause) {
        match f.recs[i].kind {
            29 => { out.push(i); i = end_of(f, i) }
            31 => i += 1,
            _ => i = end_of(f, i),
        }
    }
    out
}

/// The frame as `root` sees the enclosing root `outer`: of a WITH clause between them whose item holds it, that item and the later ones are gone.
pub fn seen(f: &Frame, outer: usize, root: usize) -> Frame {
    let mut gone = vec![false; f.recs.len()];
    for &clause in above(f, root).iter().take_while(|&&i| i >= outer).filter(|&&i| f.recs[i].kind == 14) {
        for item in items(f, clause).into_iter().skip_while(|&i| !(i < root && root < end_of(f, i))) {
            gone[item..end_of(f, item)].fill(true);
        }
    }
    let mut other = f.clone();
    other.recs = (0..f.recs.len()).filter(|&i| !gone[i]).map(|i| f.recs[i]).collect();
    other
}
