//! The listed differences: the smallest frame of each, asked of both sides anew.
use crate::desk::{self, List, Of};
use crate::frames::{Frame, BARE_WORD, NONE, QUOTED};
use crate::glance::lines;
use crate::inputs::made;
use crate::rust::{asked_of_text, Text};

/// What the Rust does: it stops, no text holds the source, or it answers a name that is an empty text.
enum Rust {
    Stops,
    NoText,
    EmptyName,
}

struct Listed {
    what: &'static str,
    frame: Frame,
    question: List,
    rust: Rust,
    ours: &'static [&'static [u32]],
}

fn all() -> [Listed; 10] {
    let with = |text: &str, end| made(text, &[(14, 0, 0, end), (29, 1, 0, end), (QUOTED, 2, 0, end)]);
    let mut not_text = made("x", &[(1, 0, 0, 1), (133, 1, 0, 1)]);
    not_text.source = vec![255];
    [
        Listed { what: "a lone quote mark as a WITH name", frame: with("`", 1), question: List::WithNames, rust: Rust::Stops, ours: &[&[0, 1, 0, 1, 0, 1]] },
        Listed { what: "a lone quote mark as an alias of a column", frame: made("\"", &[(15, 0, 0, 1), (36, 1, 0, 1), (QUOTED, 2, 0, 1)]), question: List::ColumnAliases,
            rust: Rust::Stops, ours: &[&[0, 1, 0, 1, 0, 1]] },
        Listed { what: "a lone quote mark as an alias of a table", frame: made("t`", &[(16, 0, 0, 2), (33, 1, 0, 1), (BARE_WORD, 2, 0, 1), (35, 1, 1, 2), (QUOTED, 2, 1, 2)]),
            question: List::TableRefs, rust: Rust::Stops, ours: &[&[1, NONE, NONE, NONE, NONE, 0, 1, 0, 1, 1, 2, 1, 2]] },
        Listed { what: "a lone quote mark in an alias that has a later name", frame: made("`x", &[(15, 0, 0, 2), (36, 1, 0, 2), (QUOTED, 2, 0, 1), (BARE_WORD, 2, 1, 2)]),
            question: List::ColumnAliases, rust: Rust::Stops, ours: &[&[1, 2, 1, 2, 0, 2]] },
        Listed { what: "a lone quote mark, and another list of its root",
            frame: made("`x", &[(4, 0, 0, 2), (14, 1, 0, 1), (29, 2, 0, 1), (QUOTED, 3, 0, 1), (15, 1, 1, 2), (36, 2, 1, 2), (BARE_WORD, 3, 1, 2)]),
            question: List::ColumnAliases, rust: Rust::Stops, ours: &[&[1, 2, 1, 2, 1, 2]] },
        Listed { what: "a token that ends inside a character, classed", frame: made("é", &[(55, 0, 0, 2), (BARE_WORD, 1, 0, 1)]), question: List::Classes,
            rust: Rust::Stops, ours: &[&[0, 1, 6]] },
        Listed { what: "a token that ends inside a character, at a cursor", frame: made("é", &[(16, 0, 0, 2), (BARE_WORD, 1, 0, 1)]), question: List::Context,
            rust: Rust::Stops, ours: &[&[1, NONE, NONE, 0]] },
        Listed { what: "a source that is no UTF-8", frame: not_text, question: List::Classes, rust: Rust::NoText, ours: &[&[0, 1, 3]] },
        Listed { what: "a function without a name", frame: made("", &[(43, 0, 0, 0)]), question: List::Context, rust: Rust::EmptyName, ours: &[&[10, NONE, NONE, 0]] },
        Listed { what: "a function named by a word of no bytes", frame: made("", &[(43, 0, 0, 0), (BARE_WORD, 1, 0, 0)]), question: List::Context, rust: Rust::EmptyName,
            ours: &[&[10, 0, 0, 0]] },
    ]
}

fn rows(bytes: &[u8], width: usize) -> Vec<Vec<u32>> {
    bytes.chunks(width).map(|e| e.chunks(4).map(|n| u32::from_le_bytes(n.try_into().expect("four"))).collect()).collect()
}

/// Shows each, or only one that is not as it is listed; false where there is one.
pub fn listed(show: bool) -> bool {
    let mut as_listed = true;
    for d in all() {
        let of = if d.question == List::Context { Of::Cursor(0) } else { Of::Root(0) };
        let mut out = [0; 64];
        let reply = desk::list(d.question, &d.frame.table(), &d.frame.source, of, &mut out);
        let ours = rows(&out[..reply.1 as usize * d.question.width()], d.question.width());
        let said = asked_of_text(&d.frame, d.question);
        let same = reply.0 == 0 && ours == d.ours && match (&d.rust, &said) {
            (Rust::Stops, Text::Stopped(_)) | (Rust::NoText, Text::NoText) => true,
            (Rust::EmptyName, Text::Said(text)) => text.contains("function_name: \"\""),
            _ => false,
        };
        if show || !same {
            let input = lines(&d.frame, 0).expect("two digits each");
            println!("{}: {:?}\n{}the Rust: {said:?}\nours: {ours:?}{}\n", d.what, d.question, String::from_utf8_lossy(&input), if same { "" } else { "\nthis is not as listed" });
        }
        as_listed &= same;
    }
    as_listed
}
