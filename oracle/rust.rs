//! The Rust's answers, as our questions give them. A name comes back as a String; where it stands is found by a second run of the same
//! function over a twin, whose token texts tell the records apart, and the first run's text is compared with the bytes at that place.
use crate::desk::List;
use crate::frames::{Frame, Rec, BARE_WORD, NONE, QUOTED, TABLE_IDENTIFIER};
use crate::text::analysis::cursor_context::{cursor_context, CursorContext};
use crate::text::analysis::scope::{build_scope, find_enclosing_statement, NameBinding, QueryScope};
use crate::text::diagnostics::bracket_matching;
use crate::text::diagnostics::types::{Diagnostic, Severity};
use crate::text::lexer::token::Token;
use crate::text::lsp::semantic_tokens;
use crate::text::parser::syntax_kind::SyntaxKind::{self, *};
use crate::text::parser::syntax_tree::{SyntaxChild, SyntaxTree};
use std::panic::{catch_unwind, AssertUnwindSafe};
use std::sync::atomic::{AtomicBool, Ordering};

/// Is the Rust at work where it may stop?
pub static ASKING: AtomicBool = AtomicBool::new(false);

/// Document 01's numbers of the nodes, from 1 on.
const NODES: [SyntaxKind; 55] = [
    File, QueryList, Error, SelectStatement, InsertStatement, CreateStatement, AlterStatement, DeleteStatement, UpdateStatement, DropStatement,
    ShowStatement, ExplainStatement, DescribeStatement, WithClause, SelectClause, FromClause, JoinClause, PrewhereClause, WhereClause, GroupByClause,
    HavingClause, OrderByClause, SettingsClause, SettingList, EngineClause, FormatClause, InsertFormatClause, JoinConstraint, WithExpressionItem,
    SubqueryExpression, ColumnList, ExpressionList, TableIdentifier, TableExpression, TableAlias, ColumnAlias, ColumnDefinition,
    ColumnTypeDefinition, ColumnCodec, DataType, DataTypeParameters, NestedDataType, FunctionCall, AggregateFunction, TableFunction, Identifier,
    ColumnReference, QualifiedName, QueryParameterExpression, DatabaseDefinition, TableDefinition, ViewDefinition, MaterializedViewDefinition,
    DictionaryDefinition, Expression,
];

/// Of the tokens, from 129 on.
const TOKENS: [SyntaxKind; 29] = [
    Whitespace, Comment, BareWord, QuotedIdentifier, Number, StringToken, HereDoc, Comma, OpeningRoundBracket, OpeningSquareBracket,
    OpeningCurlyBrace, ClosingRoundBracket, ClosingSquareBracket, ClosingCurlyBrace, Plus, Minus, Star, Slash, Percent, Equals, NotEquals, Less,
    Greater, LessOrEquals, GreaterOrEquals, Spaceship, Concatenation, DoubleColon, Arrow,
];

/// Kinds that the paper folds into 0 and 128: which of them stands for a record does not matter, so they take turns.
const OTHER_NODES: [SyntaxKind; 8] =
    [LimitClause, ArrayJoinClause, TruncateStatement, CaseExpression, BinaryExpression, JoinType, SettingItem, FunctionDefinition];
const OTHER_TOKENS: [SyntaxKind; 6] = [Dot, Semicolon, Colon, QuestionMark, ErrorToken, EndOfStream];

fn kind_of(r: &Rec, i: usize) -> SyntaxKind {
    match r.kind {
        0 => OTHER_NODES[i % OTHER_NODES.len()],
        128 => OTHER_TOKENS[i % OTHER_TOKENS.len()],
        k if k < 128 => NODES[k as usize - 1],
        k => TOKENS[k as usize - 129],
    }
}

/// The tree of an admitted table of n records, which are read one by one.
pub fn tree_by(rec: &impl Fn(usize) -> Rec, n: usize) -> SyntaxTree {
    fn below(rec: &impl Fn(usize) -> Rec, n: usize, i: &mut usize) -> SyntaxTree {
        let r = rec(*i);
        let mut tree = SyntaxTree { kind: kind_of(&r, *i), children: Vec::new(), start: r.start, end: r.end };
        *i += 1;
        while *i < n {
            let c = rec(*i);
            if c.depth <= r.depth {
                break;
            }
            if c.is_token() {
                tree.children.push(SyntaxChild::Token(Token::new(kind_of(&c, *i), c.start, c.end)));
                *i += 1;
            } else {
                tree.children.push(SyntaxChild::Tree(below(rec, n, i)));
            }
        }
        tree
    }
    below(rec, n, &mut 0)
}

pub fn tree_of(recs: &[Rec]) -> SyntaxTree {
    tree_by(&|i| recs[i], recs.len())
}

/// The nodes of a tree with their record numbers.
fn nodes(tree: &SyntaxTree) -> Vec<(usize, &SyntaxTree)> {
    fn go<'a>(tree: &'a SyntaxTree, next: &mut usize, out: &mut Vec<(usize, &'a SyntaxTree)>) {
        out.push((*next, tree));
        *next += 1;
        for child in &tree.children {
            match child {
                SyntaxChild::Token(_) => *next += 1,
                SyntaxChild::Tree(t) => go(t, next, out),
            }
        }
    }
    let mut out = Vec::new();
    go(tree, &mut 0, &mut out);
    out
}

pub fn node_at(tree: &SyntaxTree, record: usize) -> &SyntaxTree {
    nodes(tree).into_iter().find(|n| n.0 == record).expect("a node").1
}

/// A frame as the Rust gets it, with its twins.
pub struct Asked<'a> {
    pub frame: &'a Frame,
    source: &'a str,
    tree: SyntaxTree,
    twin: Twin,
}

/// Node spans are the record's number twice. Token texts spell theirs, in the quote marks that they had; a bareword AS stays what it is,
/// but in a table's name, where each word is a part.
struct Twin {
    source: String,
    recs: Vec<Rec>,
    tree: SyntaxTree,
}

fn quote(c: u8) -> bool {
    c == b'`' || c == b'"'
}

impl Twin {
    fn of(frame: &Frame) -> Twin {
        let mut source = String::new();
        let mut recs = frame.recs.clone();
        let mut parents: Vec<u32> = Vec::new();
        for i in 0..recs.len() {
            let r = frame.recs[i];
            parents.truncate(r.depth as usize);
            if !r.is_token() {
                parents.push(r.kind);
                recs[i].start = i as u32;
                recs[i].end = i as u32;
                continue;
            }
            let text = frame.text(i);
            recs[i].start = source.len() as u32;
            if r.kind == BARE_WORD && text.eq_ignore_ascii_case(b"AS") && parents.last() != Some(&TABLE_IDENTIFIER) {
                source.push_str("AS");
            } else {
                if text.len() > 1 && quote(text[0]) {
                    source.push(text[0] as char);
                }
                source.push_str(&format!("t{i}"));
                if text.len() > 1 && quote(text[text.len() - 1]) {
                    source.push(text[text.len() - 1] as char);
                }
            }
            recs[i].end = source.len() as u32;
        }
        let tree = tree_of(&recs);
        Twin { source, recs, tree }
    }

    /// Where a name of the twin stands in the frame: its token's record, and its range, by how much of the token's text was cut at either end.
    fn place(&self, frame: &Frame, name: &str, true_name: &str) -> Result<(usize, [u32; 2]), String> {
        let digits: String = name.chars().filter(|c| c.is_ascii_digit()).collect();
        let i: usize = digits.parse().map_err(|_| format!("the twin's name {name:?} spells no record"))?;
        let text = &self.source[self.recs[i].start as usize..self.recs[i].end as usize];
        let cut = text.find(name).ok_or(format!("the twin's name {name:?} is not in {text:?}"))?;
        let range = [frame.recs[i].start + cut as u32, frame.recs[i].end - (text.len() - cut - name.len()) as u32];
        let there = frame.source.get(range[0] as usize..range[1] as usize);
        if there != Some(true_name.as_bytes()) {
            return Err(format!("the Rust's name {true_name:?} is not what stands at {range:?}: {there:?}"));
        }
        Ok((i, range))
    }
}

/// The two ranges of a name, written anew from document 02 §3: the outer one is its token's, the inner one is without a matching pair of marks where the token is a
/// Quoted. The Rust has but one of the two.
fn name_at(frame: &Frame, record: usize) -> ([u32; 2], [u32; 2]) {
    let r = frame.recs[record];
    let outer = [r.start, r.end];
    match (r.kind, frame.text(record)) {
        (QUOTED, [b'`', .., b'`'] | [b'"', .., b'"']) => (outer, [r.start + 1, r.end - 1]),
        _ => (outer, outer),
    }
}

/// A context's number, its name and its argument index.
fn coded(context: &CursorContext) -> (u32, String, u32) {
    use CursorContext as C;
    let plain = |n| (n, String::new(), 0);
    match context {
        C::SelectExpression => plain(0),
        C::TableReference { database_prefix: None } => plain(1),
        C::TableReference { database_prefix: Some(name) } => (2, name.clone(), 0),
        C::ColumnOfTable { qualifier } => (3, qualifier.clone(), 0),
        C::Expression => plain(4),
        C::SettingName => plain(5),
        C::EngineName => plain(6),
        C::FormatName => plain(7),
        C::DataType => plain(8),
        C::CodecName => plain(9),
        C::FunctionArgument { function_name, argument_index } => (10, function_name.clone(), *argument_index as u32),
        C::StatementStart => plain(11),
        C::Unknown => plain(12),
        C::ClauseKeyword { .. } => unreachable!("the Rust names it and never gives it"),
    }
}

/// What the Rust said, or that it stopped.
pub enum Said<T> {
    Answer(T),
    Stopped,
}

impl<'a> Asked<'a> {
    /// The source must be UTF-8, and each token's ends between characters.
    pub fn new(frame: &'a Frame) -> Option<Asked<'a>> {
        let source = std::str::from_utf8(&frame.source).ok()?;
        let whole = |r: &Rec| !r.is_token() || source.is_char_boundary(r.start as usize) && source.is_char_boundary(r.end as usize);
        if !frame.recs.iter().all(whole) {
            return None;
        }
        Some(Asked { frame, source, tree: tree_of(&frame.recs), twin: Twin::of(frame) })
    }

    pub fn classes(&self) -> Vec<Vec<u32>> {
        let mut out = Vec::new();
        semantic_tokens::probe(&self.tree, self.source, &mut out);
        out.into_iter().map(|(a, b, c)| vec![a, b, c]).collect()
    }

    /// The twin for brackets: each token's span is its own number, since only the span comes back.
    fn numbered(&self) -> SyntaxTree {
        let mut recs = self.frame.recs.clone();
        for (i, r) in recs.iter_mut().enumerate() {
            (r.start, r.end) = (i as u32, i as u32);
        }
        tree_of(&recs)
    }

    fn same_span(&self, record: usize, span: (usize, usize)) -> Result<u32, String> {
        let r = self.frame.recs[record];
        if (r.start as usize, r.end as usize) == span { Ok(record as u32) } else { Err(format!("bracket {record} is not at {span:?}")) }
    }

    pub fn openers(&self) -> Result<Vec<Vec<u32>>, String> {
        let spans = bracket_matching::probe(&self.tree);
        let records = bracket_matching::probe(&self.numbered());
        if spans.len() != records.len() {
            return Err("the twin has other openers".into());
        }
        records.iter().zip(spans).map(|(r, s)| Ok(vec![self.same_span(r.0, s)?])).collect()
    }

    /// The opener's record, or 4294967295.
    pub fn hint(&self, message: &str) -> Result<u32, String> {
        let ask = |tree: &SyntaxTree| {
            let mut all = [diagnostic(message)];
            bracket_matching::enrich(&mut all, tree);
            all[0].related.iter().map(|r| r.range).collect::<Vec<_>>()
        };
        match (ask(&self.tree).as_slice(), ask(&self.numbered()).as_slice()) {
            ([], []) => Ok(NONE),
            ([span], [record]) => self.same_span(record.0, *span),
            other => Err(format!("hints {other:?}")),
        }
    }

    /// The four lists of a root, in the order of `desk::SCOPE`.
    pub fn scope(&self, root: usize) -> Said<Result<[Vec<Vec<u32>>; 4], String>> {
        let node = node_at(&self.tree, root);
        ASKING.store(true, Ordering::Relaxed);
        let run = catch_unwind(AssertUnwindSafe(|| build_scope(node, self.source)));
        ASKING.store(false, Ordering::Relaxed);
        let Ok(real) = run else { return Said::Stopped };
        let twin = build_scope(node_at(&self.twin.tree, root), &self.twin.source);
        Said::Answer(self.ranges(&real, &twin))
    }

    fn ranges(&self, real: &QueryScope, twin: &QueryScope) -> Result<[Vec<Vec<u32>>; 4], String> {
        Ok([
            self.bindings(&real.ctes, &twin.ctes)?,
            self.bindings(&real.table_aliases, &twin.table_aliases)?,
            self.bindings(&real.column_aliases, &twin.column_aliases)?,
            self.references(real, twin)?,
        ])
    }

    fn bindings(&self, real: &[NameBinding], twin: &[NameBinding]) -> Result<Vec<Vec<u32>>, String> {
        if real.len() != twin.len() {
            return Err("the twin has another number of bindings".into());
        }
        let one = |(r, t): (&NameBinding, &NameBinding)| {
            let (token, name) = self.twin.place(self.frame, &t.name, &r.name)?;
            let definition = self.frame.recs[t.definition_range.0 as usize];
            if (definition.start, definition.end) != r.definition_range {
                return Err("the twin has another definition".to_string());
            }
            if name_at(self.frame, token) != ([r.range.0, r.range.1], name) {
                return Err(format!("by the Rust {name:?} at {:?}, by document 02 {:?}", r.range, name_at(self.frame, token)));
            }
            Ok(vec![r.range.0, r.range.1, name[0], name[1], definition.start, definition.end])
        };
        real.iter().zip(twin).map(one).collect()
    }

    fn references(&self, real: &QueryScope, twin: &QueryScope) -> Result<Vec<Vec<u32>>, String> {
        if real.table_refs.len() != twin.table_refs.len() {
            return Err("the twin has another number of references".into());
        }
        let mut out = Vec::new();
        for (r, t) in real.table_refs.iter().zip(&twin.table_refs) {
            let mut row = vec![t.range.0];
            let node = self.frame.recs[t.range.0 as usize];
            if (node.start, node.end) != r.range {
                return Err("the twin has another reference".into());
            }
            // of a database and of a table the Rust has the outer range, of an alias the inner one
            for (real, twin, quoted) in [(&r.database, &t.database, true), (&Some(r.table.clone()), &Some(t.table.clone()), true), (&r.alias, &t.alias, false)] {
                match (real, twin) {
                    (None, None) => row.extend([NONE; 4]),
                    (Some(real), Some(twin)) => {
                        let (record, range) = self.twin.place(self.frame, twin, real)?;
                        let (outer, inner) = name_at(self.frame, record);
                        row.extend(if quoted { [range, inner] } else { [outer, range] }.concat());
                    }
                    _ => return Err("the twin's reference has other parts".into()),
                }
            }
            out.push(row);
        }
        Ok(out)
    }

    /// The enclosing statement's record, or 4294967295.
    pub fn statement(&self, offset: u32) -> u32 {
        match find_enclosing_statement(&self.tree, offset) {
            None => NONE,
            Some(s) => nodes(&self.tree).iter().find(|n| std::ptr::eq(n.1, s)).expect("a node").0 as u32,
        }
    }

    /// The context in a twin where a token's length tells its record, but where those that are kept have their text. Token ends do not matter
    /// to the cursor, only starts and texts, and of the texts only those of `matters`.
    fn context_twin(&self, offset: u32, kept: impl Fn(usize) -> bool) -> CursorContext {
        let mut source = vec![b'x'; self.frame.source.len() + 2 * self.frame.recs.len() + 8];
        let mut recs = self.frame.recs.clone();
        for i in (0..recs.len()).filter(|&i| self.frame.recs[i].is_token()) {
            if kept(i) {
                source[recs[i].start as usize..recs[i].end as usize].copy_from_slice(self.frame.text(i));
            } else {
                recs[i].end = recs[i].start + 8 + i as u32;
            }
        }
        cursor_context(&tree_of(&recs), std::str::from_utf8(&source).expect("ASCII"), offset)
    }

    /// Context, name range, argument index. A name can be a text that matters only where the last token's matters: then one alone is kept.
    pub fn context(&self, offset: u32) -> Result<[u32; 4], String> {
        let matters = |i: usize| [".", ";", "ON", "USING"].iter().any(|w| self.frame.text(i).eq_ignore_ascii_case(w.as_bytes()));
        let (number, name, index) = coded(&cursor_context(&self.tree, self.source, offset));
        let each = (0..self.frame.recs.len()).filter(|&j| matters(j)).map(|j| self.context_twin(offset, move |i| i == j));
        let twins = std::iter::once_with(|| self.context_twin(offset, matters)).chain(std::iter::once_with(|| self.context_twin(offset, |_| false))).chain(each);
        for twin in twins {
            let (twins_number, twins_name, twins_index) = coded(&twin);
            if (number, index) != (twins_number, twins_index) || twins_name.len() < 8 && !twins_name.is_empty() {
                continue;
            }
            if twins_name.is_empty() {
                return if name.is_empty() { Ok([number, NONE, NONE, index]) } else { Err(format!("the twin has no name for {name:?}")) };
            }
            let i = twins_name.len() - 8;
            let r = self.frame.recs[i];
            return if self.frame.text(i) == name.as_bytes() { Ok([number, r.start, r.end, index]) } else { Err(format!("the Rust's name {name:?} is not record {i}")) };
        }
        Err(format!("no twin has the context {number} with the name {name:?}"))
    }

    /// For measuring: the Rust's own functions on the tree, with nothing around them.
    pub fn measure(&self, q: List, offset: u32) -> usize {
        match q {
            List::Classes => {
                let mut out = Vec::new();
                semantic_tokens::probe(&self.tree, self.source, &mut out);
                out.len()
            }
            List::Openers => bracket_matching::probe(&self.tree).len(),
            List::Context => matches!(cursor_context(&self.tree, self.source, offset), CursorContext::Unknown) as usize,
            _ => build_scope(&self.tree, self.source).table_refs.len(),
        }
    }

    pub fn hint_once(&self, message: &str) -> usize {
        let mut all = [diagnostic(message)];
        bracket_matching::enrich(&mut all, &self.tree);
        all[0].related.len()
    }

    pub fn statement_once(&self, offset: u32) -> usize {
        find_enclosing_statement(&self.tree, offset).is_some() as usize
    }
}

fn diagnostic(message: &str) -> Diagnostic {
    Diagnostic { message: message.into(), range: (0, 0), severity: Severity::Error, code: None, suggestion: None, related: Vec::new() }
}

/// What the Rust says of a frame that is not looked at first; a source that is no text it cannot be given.
#[derive(Debug)]
pub enum Text {
    Said(String),
    Stopped(String),
    NoText,
}

pub fn asked_of_text(frame: &Frame, q: List) -> Text {
    let Ok(source) = std::str::from_utf8(&frame.source) else { return Text::NoText };
    let tree = tree_of(&frame.recs);
    ASKING.store(true, Ordering::Relaxed);
    let run = catch_unwind(AssertUnwindSafe(|| match q {
        List::Classes => {
            let mut out = Vec::new();
            semantic_tokens::probe(&tree, source, &mut out);
            format!("{out:?}")
        }
        List::Context => format!("{:?}", cursor_context(&tree, source, 0)),
        _ => format!("{:?}", build_scope(&tree, source)),
    }));
    ASKING.store(false, Ordering::Relaxed);
    run.map_or_else(|why| Text::Stopped(why.downcast_ref::<String>().cloned().unwrap_or_default()), Text::Said)
}

/// A lone quote mark stops the Rust, and ours keeps it: the frame with a letter in its place.
pub fn without_lone_quotes(frame: &Frame) -> Frame {
    let lone = |&i: &usize| frame.recs[i].kind == QUOTED && frame.text(i).len() == 1 && quote(frame.text(i)[0]);
    let mut other = frame.clone();
    for i in (0..frame.recs.len()).filter(lone) {
        other.source[frame.recs[i].start as usize] = b'x';
    }
    other
}

/// The Rust cannot be asked where the source or a token is no text, and ours answers by bytes: the frame with one mark for each byte over 127.
/// Every test of a text, by the Rust and by document 01, is for words and marks of ASCII.
pub fn in_ascii(frame: &Frame) -> Frame {
    let mut other = frame.clone();
    other.source.iter_mut().filter(|b| **b > 127).for_each(|b| *b = b'~');
    other
}
