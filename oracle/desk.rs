//! Our questions, as C sees them: a slice is a pointer and a length, a reply is two halves of 32 bits.
extern "C" {
    fn desk_check(t: *const u8, tn: usize, s: *const u8, sn: usize) -> u64;
    fn desk_token_classes(t: *const u8, tn: usize, s: *const u8, sn: usize, o: *mut u8, on: usize) -> u64;
    fn desk_openers_left(t: *const u8, tn: usize, s: *const u8, sn: usize, o: *mut u8, on: usize) -> u64;
    fn desk_bracket_hint(t: *const u8, tn: usize, s: *const u8, sn: usize, m: *const u8, mn: usize) -> u64;
    fn desk_with_names(t: *const u8, tn: usize, s: *const u8, sn: usize, r: u32, o: *mut u8, on: usize) -> u64;
    fn desk_table_aliases(t: *const u8, tn: usize, s: *const u8, sn: usize, r: u32, o: *mut u8, on: usize) -> u64;
    fn desk_column_aliases(t: *const u8, tn: usize, s: *const u8, sn: usize, r: u32, o: *mut u8, on: usize) -> u64;
    fn desk_table_refs(t: *const u8, tn: usize, s: *const u8, sn: usize, r: u32, o: *mut u8, on: usize) -> u64;
    fn desk_records_above(t: *const u8, tn: usize, s: *const u8, sn: usize, r: u32, o: *mut u8, on: usize) -> u64;
    fn desk_cursor_context(t: *const u8, tn: usize, s: *const u8, sn: usize, f: u32, o: *mut u8, on: usize) -> u64;
    fn desk_everything_at(t: *const u8, tn: usize, s: *const u8, sn: usize, f: u32, o: *mut u8, on: usize, w: *mut u8, wn: usize, a: *mut u8, an: usize, c: *mut u8, cn: usize, r: *mut u8, rn: usize) -> u64;
    fn desk_cursor_contexts(t: *const u8, tn: usize, s: *const u8, sn: usize, f: *const u8, fs: usize, o: *mut u8, on: usize) -> u64;
    fn desk_enclosing_statement(t: *const u8, tn: usize, s: *const u8, sn: usize, f: u32) -> u64;
    fn desk_cursor_root(t: *const u8, tn: usize, s: *const u8, sn: usize, f: u32) -> u64;
    fn desk_with_names_at(t: *const u8, tn: usize, s: *const u8, sn: usize, f: u32, o: *mut u8, on: usize) -> u64;
    fn desk_table_aliases_at(t: *const u8, tn: usize, s: *const u8, sn: usize, f: u32, o: *mut u8, on: usize) -> u64;
    fn desk_column_aliases_at(t: *const u8, tn: usize, s: *const u8, sn: usize, f: u32, o: *mut u8, on: usize) -> u64;
    fn desk_table_refs_at(t: *const u8, tn: usize, s: *const u8, sn: usize, f: u32, o: *mut u8, on: usize) -> u64;
}

/// A question for a list.
#[derive(Clone, Copy, PartialEq, Debug)]
pub enum List {
    Classes,
    Openers,
    WithNames,
    TableAliases,
    ColumnAliases,
    TableRefs,
    Context,
    Above,
    Contexts,
}

/// What a list is of: a root or record, the cursor at an offset, or the cursors at offsets of four bytes each. It counts for the scope's lists, the context, the
/// contexts and what is above only.
#[derive(Clone, Copy, PartialEq, Debug)]
pub enum Of<'a> {
    Root(u32),
    Cursor(u32),
    Cursors(&'a [u8]),
}

pub const SCOPE: [List; 4] = [List::WithNames, List::TableAliases, List::ColumnAliases, List::TableRefs];

impl List {
    /// How many bytes an entry takes.
    pub fn width(self) -> usize {
        match self {
            List::Classes => 12,
            List::Openers | List::Above => 4,
            List::TableRefs => 52,
            List::Context | List::Contexts => 16,
            _ => 24,
        }
    }
}

fn halves(reply: u64) -> (u32, u32) {
    (reply as u32, (reply >> 32) as u32)
}

pub fn check(t: &[u8], s: &[u8]) -> (u32, u32) {
    halves(unsafe { desk_check(t.as_ptr(), t.len(), s.as_ptr(), s.len()) })
}

pub fn hint(t: &[u8], s: &[u8], m: &[u8]) -> (u32, u32) {
    halves(unsafe { desk_bracket_hint(t.as_ptr(), t.len(), s.as_ptr(), s.len(), m.as_ptr(), m.len()) })
}

pub fn statement(t: &[u8], s: &[u8], offset: u32) -> (u32, u32) {
    halves(unsafe { desk_enclosing_statement(t.as_ptr(), t.len(), s.as_ptr(), s.len(), offset) })
}

pub fn root(t: &[u8], s: &[u8], offset: u32) -> (u32, u32) {
    halves(unsafe { desk_cursor_root(t.as_ptr(), t.len(), s.as_ptr(), s.len(), offset) })
}

pub fn list(q: List, t: &[u8], s: &[u8], of: Of, out: &mut [u8]) -> (u32, u32) {
    let (tp, tn, sp, sn) = (t.as_ptr(), t.len(), s.as_ptr(), s.len());
    let (op, on) = (out.as_mut_ptr(), out.len());
    halves(unsafe {
        match (q, of) {
            (List::Classes, _) => desk_token_classes(tp, tn, sp, sn, op, on),
            (List::Openers, _) => desk_openers_left(tp, tn, sp, sn, op, on),
            (List::WithNames, Of::Root(r)) => desk_with_names(tp, tn, sp, sn, r, op, on),
            (List::TableAliases, Of::Root(r)) => desk_table_aliases(tp, tn, sp, sn, r, op, on),
            (List::ColumnAliases, Of::Root(r)) => desk_column_aliases(tp, tn, sp, sn, r, op, on),
            (List::TableRefs, Of::Root(r)) => desk_table_refs(tp, tn, sp, sn, r, op, on),
            (List::WithNames, Of::Cursor(f)) => desk_with_names_at(tp, tn, sp, sn, f, op, on),
            (List::TableAliases, Of::Cursor(f)) => desk_table_aliases_at(tp, tn, sp, sn, f, op, on),
            (List::ColumnAliases, Of::Cursor(f)) => desk_column_aliases_at(tp, tn, sp, sn, f, op, on),
            (List::TableRefs, Of::Cursor(f)) => desk_table_refs_at(tp, tn, sp, sn, f, op, on),
            (List::Above, Of::Cursor(r) | Of::Root(r)) => desk_records_above(tp, tn, sp, sn, r, op, on),
            (List::Contexts, Of::Cursors(f)) => desk_cursor_contexts(tp, tn, sp, sn, f.as_ptr(), f.len(), op, on),
            (List::Contexts, _) | (_, Of::Cursors(_)) => panic!("no such question"),
            (List::Context, Of::Cursor(f) | Of::Root(f)) => desk_cursor_context(tp, tn, sp, sn, f, op, on),
        }
    })
}

/// Everything at a cursor in one call: the entry's buffer, and one for each list in the order of `SCOPE`.
pub fn everything(t: &[u8], s: &[u8], offset: u32, out: [&mut [u8]; 5]) -> (u32, u32) {
    let [o, w, a, c, r] = out;
    let (tp, tn, sp, sn) = (t.as_ptr(), t.len(), s.as_ptr(), s.len());
    halves(unsafe {
        desk_everything_at(tp, tn, sp, sn, offset, o.as_mut_ptr(), o.len(), w.as_mut_ptr(), w.len(), a.as_mut_ptr(), a.len(), c.as_mut_ptr(), c.len(), r.as_mut_ptr(), r.len())
    })
}
