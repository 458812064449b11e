/* The query desk's questions, for C (C99 on) and C++. `host/install PREFIX` puts this header, libdesk.a, libdesk.so and desk.pc (pkg-config) under
 * a prefix. The code is for x86-64 and needs nothing but memcpy and memset. docs/GUIDE.md says more of tables, contexts and entries, with examples.
 *
 * A slice is a pointer and a length in bytes; with length 0 the pointer may be null. No call needs a check before it, keeps a pointer,
 * allocates, or writes outside `out` and the lists' buffers. What is written must not overlap another slice.
 * Threads: there is no state. Any number of threads may ask at once; what one reads or writes in a call no other may write in that time.
 * Stack: no question needs more than 32 KiB (docs/MEASURES.md has each).
 *
 * The table: DESK_RECORD_BYTES a record, five little-endian numbers of 32 bits: kind, depth, start, end, parent. Records stand in document order, a
 * node before its children. The parent is the number of the nearest earlier record whose depth is one less; record 0 carries 0.
 * The source: the bytes that the spans speak of. An offset may be any number.
 * A node's span may be any two numbers, and so may a binding's definition range, which is a node's span: both may lie outside the source. Take the text
 * by desk_cut_range, never unchecked. All other ranges that are answered are tokens', with or without quotes, and lie inside the source, or are absent.
 *
 * A reply is one number, of two halves. Low half: 0, or the number of the refusal. High half: the answer, or the refusal's detail.
 * A refused call leaves every byte of `out` as it was. How long a list is: ask with out_len 0. The reply is refusal 7 with the count for its detail, or
 * answer 0 where the list is empty. Allocate that many entries, and ask again.
 *
 * Refusals (enum desk_refusal, in words by desk_refusal_words), the first in this order that applies:
 *   1  table length 0, not a multiple of DESK_RECORD_BYTES, or over DESK_RECORDS_MAX records   detail 0
 *   2  source over DESK_SOURCE_MAX bytes, or message over DESK_MESSAGE_MAX                     detail 0
 *   10 over DESK_OFFSETS_MAX offsets, or not a whole count of DESK_OFFSET_BYTES                detail 0
 *   then record by record, the detail being the record:
 *   3  kind not listed
 *   4  record 0 not a node of depth 0; or a later depth is 0, is over the previous depth plus 1, or is over that of a token just before
 *   5  depth over DESK_DEPTH_MAX
 *   12 a parent that is not the record's
 *   6  a token with start > end, end past the source, or start before the previous token's end
 *   then:
 *   8  the root is no node of the table; or the record is not in it                            detail 0
 *   7  the list needs more bytes than `out` has                                                detail: the entries needed
 */
#ifndef DESK_H
#define DESK_H
#include <stddef.h>
#include <stdint.h>
#ifdef __cplusplus
extern "C" {
#endif

/* The layout of records and entries that this header speaks of. Every file that includes it asks the archive for this one by name, so that a host
 * and an archive of two layouts do not link. Answer: the layout's number. */
#define DESK_LAYOUT 3
uint64_t desk_layout_3(void);
#if defined(__GNUC__)
__attribute__((used))
#endif
static uint64_t (*const desk_layout)(void) = desk_layout_3;

#define DESK_RECORDS_MAX 4096
#define DESK_DEPTH_MAX 63
#define DESK_SOURCE_MAX 65536
#define DESK_MESSAGE_MAX 4096
#define DESK_OFFSETS_MAX 64
#define DESK_OFFSET_BYTES 4     /* of a list of offsets, little-endian */

/* no record; and the start and the end of an absent range: one number for both, which no record and no place in a source has */
#define DESK_NONE UINT32_C(4294967295)

/* bytes of a record and of each entry, little-endian numbers of 32 bits */
#define DESK_RECORD_BYTES 20    /* kind, depth, start, end, parent */
#define DESK_CLASS_BYTES 12     /* start, end, class */
#define DESK_OPENER_BYTES 4     /* record */
#define DESK_BINDING_BYTES 24   /* token start, end; name start, end; definition start, end: a node's span, which may lie outside the source */
#define DESK_REFERENCE_BYTES 52 /* record; then of database, table and alias, one after another: outer start, end; inner start, end */
#define DESK_CONTEXT_BYTES 16   /* context; name start, end; argument index */
#define DESK_ABOVE_BYTES 4      /* record */
#define DESK_EVERYTHING_BYTES 36 /* a context's four numbers; root; how many WITH names, table aliases, column aliases, table references */

#define DESK_REFUSAL(reply) ((uint32_t)(reply))
#define DESK_ANSWER(reply) ((uint32_t)((uint64_t)(reply) >> 32))

/* A record's kind: nodes to DESK_KIND_LAST_NODE, tokens from DESK_KIND_OTHER_TOKEN. What a parser has beside these is another node or another token. */
enum desk_kind {
    DESK_KIND_OTHER_NODE, DESK_KIND_FILE, DESK_KIND_QUERY_LIST, DESK_KIND_ERROR,
    DESK_KIND_SELECT_STATEMENT, DESK_KIND_INSERT_STATEMENT, DESK_KIND_CREATE_STATEMENT, DESK_KIND_ALTER_STATEMENT, DESK_KIND_DELETE_STATEMENT,
    DESK_KIND_UPDATE_STATEMENT, DESK_KIND_DROP_STATEMENT, DESK_KIND_SHOW_STATEMENT, DESK_KIND_EXPLAIN_STATEMENT, DESK_KIND_DESCRIBE_STATEMENT,
    DESK_KIND_WITH_CLAUSE, DESK_KIND_SELECT_CLAUSE, DESK_KIND_FROM_CLAUSE, DESK_KIND_JOIN_CLAUSE, DESK_KIND_PREWHERE_CLAUSE, DESK_KIND_WHERE_CLAUSE,
    DESK_KIND_GROUP_BY_CLAUSE, DESK_KIND_HAVING_CLAUSE, DESK_KIND_ORDER_BY_CLAUSE, DESK_KIND_SETTINGS_CLAUSE, DESK_KIND_SETTING_LIST,
    DESK_KIND_ENGINE_CLAUSE, DESK_KIND_FORMAT_CLAUSE, DESK_KIND_INSERT_FORMAT_CLAUSE, DESK_KIND_JOIN_CONSTRAINT, DESK_KIND_WITH_EXPRESSION_ITEM,
    DESK_KIND_SUBQUERY_EXPRESSION, DESK_KIND_COLUMN_LIST, DESK_KIND_EXPRESSION_LIST, DESK_KIND_TABLE_IDENTIFIER, DESK_KIND_TABLE_EXPRESSION,
    DESK_KIND_TABLE_ALIAS, DESK_KIND_COLUMN_ALIAS, DESK_KIND_COLUMN_DEFINITION, DESK_KIND_COLUMN_TYPE_DEFINITION, DESK_KIND_COLUMN_CODEC,
    DESK_KIND_DATA_TYPE, DESK_KIND_DATA_TYPE_PARAMETERS, DESK_KIND_NESTED_DATA_TYPE, DESK_KIND_FUNCTION_CALL, DESK_KIND_AGGREGATE_FUNCTION,
    DESK_KIND_TABLE_FUNCTION, DESK_KIND_IDENTIFIER, DESK_KIND_COLUMN_REFERENCE, DESK_KIND_QUALIFIED_NAME, DESK_KIND_QUERY_PARAMETER_EXPRESSION,
    DESK_KIND_DATABASE_DEFINITION, DESK_KIND_TABLE_DEFINITION, DESK_KIND_VIEW_DEFINITION, DESK_KIND_MATERIALIZED_VIEW_DEFINITION,
    DESK_KIND_DICTIONARY_DEFINITION, DESK_KIND_EXPRESSION, DESK_KIND_LAST_NODE = DESK_KIND_EXPRESSION,

    DESK_KIND_OTHER_TOKEN = 128, DESK_KIND_WHITESPACE, DESK_KIND_COMMENT, DESK_KIND_BARE_WORD, DESK_KIND_QUOTED_IDENTIFIER, DESK_KIND_NUMBER,
    DESK_KIND_STRING_TOKEN, DESK_KIND_HERE_DOC, DESK_KIND_COMMA, DESK_KIND_OPENING_ROUND, DESK_KIND_OPENING_SQUARE, DESK_KIND_OPENING_CURLY,
    DESK_KIND_CLOSING_ROUND, DESK_KIND_CLOSING_SQUARE, DESK_KIND_CLOSING_CURLY,
    /* the fifteen operators: + - * / % = != < > <= >= <=> || :: -> */
    DESK_KIND_PLUS, DESK_KIND_MINUS, DESK_KIND_STAR, DESK_KIND_SLASH, DESK_KIND_PERCENT, DESK_KIND_EQUALS, DESK_KIND_NOT_EQUALS, DESK_KIND_LESS,
    DESK_KIND_GREATER, DESK_KIND_LESS_OR_EQUALS, DESK_KIND_GREATER_OR_EQUALS, DESK_KIND_SPACESHIP, DESK_KIND_CONCATENATION, DESK_KIND_DOUBLE_COLON,
    DESK_KIND_ARROW, DESK_KIND_LAST_TOKEN = DESK_KIND_ARROW
};

enum desk_class {
    DESK_CLASS_KEYWORD, DESK_CLASS_FUNCTION, DESK_CLASS_STRING, DESK_CLASS_NUMBER, DESK_CLASS_COMMENT, DESK_CLASS_OPERATOR,
    DESK_CLASS_VARIABLE, DESK_CLASS_TYPE, DESK_CLASS_PARAMETER, DESK_CLASS_PROPERTY
};

/* What is being typed. Of a half-typed column the desk hears ColumnOfTable of r behind the dot of `r.`, and SelectExpression behind the x of `r.x`: so it
 * keeps the list that it made at the dot, and filters it by what was typed since. */
enum desk_context {
    DESK_CONTEXT_SELECT_EXPRESSION,
    DESK_CONTEXT_TABLE_REFERENCE,
    DESK_CONTEXT_TABLE_REFERENCE_WITH_PREFIX, /* the name is the database */
    DESK_CONTEXT_COLUMN_OF_TABLE,             /* the name is the qualifier */
    DESK_CONTEXT_EXPRESSION, DESK_CONTEXT_SETTING_NAME, DESK_CONTEXT_ENGINE_NAME, DESK_CONTEXT_FORMAT_NAME, DESK_CONTEXT_DATA_TYPE, DESK_CONTEXT_CODEC_NAME,
    DESK_CONTEXT_FUNCTION_ARGUMENT,           /* the name is the function's, or absent; the argument index counts from 0 */
    DESK_CONTEXT_STATEMENT_START, DESK_CONTEXT_UNKNOWN
};

enum desk_refusal {
    DESK_REFUSAL_NONE = 0, DESK_REFUSAL_TABLE_LENGTH = 1, DESK_REFUSAL_TOO_LONG = 2, DESK_REFUSAL_KIND = 3, DESK_REFUSAL_PLACE = 4, DESK_REFUSAL_DEPTH = 5,
    DESK_REFUSAL_SPAN = 6, DESK_REFUSAL_ROOM = 7, DESK_REFUSAL_ROOT = 8,
    DESK_REFUSAL_LINE = 9, /* of the program glance alone */
    DESK_REFUSAL_OFFSETS = 10, DESK_REFUSAL_PARENT = 12
};

/* A refusal in words; any number may be asked for. */
static inline const char *desk_refusal_words(uint32_t number) {
    switch (number) {
    case DESK_REFUSAL_NONE: return "not refused";
    case DESK_REFUSAL_TABLE_LENGTH: return "the table is empty, no whole count of records, or over 4,096 records";
    case DESK_REFUSAL_TOO_LONG: return "the source is over 65,536 bytes, or the message over 4,096";
    case DESK_REFUSAL_KIND: return "its kind is not listed";
    case DESK_REFUSAL_PLACE: return "its depth fits nowhere: no node at depth 0 to begin with, a second root, more than one step down, or below a token";
    case DESK_REFUSAL_DEPTH: return "it is deeper than 63";
    case DESK_REFUSAL_SPAN: return "a token that ends before it starts, ends past the source, or starts before the last token's end";
    case DESK_REFUSAL_ROOM: return "the list needs more room than the buffer has";
    case DESK_REFUSAL_ROOT: return "the root named is no node of the table, or the record named is not in it";
    case DESK_REFUSAL_LINE: return "not of the form that a frame's line has, missing, or one too many";
    case DESK_REFUSAL_OFFSETS: return "over 64 offsets, or no whole count of them";
    case DESK_REFUSAL_PARENT: return "its parent is not the nearest earlier record whose depth is one less";
    default: return "no refusal of this number is known";
    }
}

/* What the refusal's detail counts: "record", "entries needed", "line", or "" where the detail is 0 and says nothing. */
static inline const char *desk_detail_words(uint32_t number) {
    switch (number) {
    case DESK_REFUSAL_KIND: case DESK_REFUSAL_PLACE: case DESK_REFUSAL_DEPTH: case DESK_REFUSAL_PARENT: case DESK_REFUSAL_SPAN: return "record";
    case DESK_REFUSAL_ROOM: return "entries needed";
    case DESK_REFUSAL_LINE: return "line";
    default: return "";
    }
}

/* ---- reading and writing tables and entries, byte by byte: no alignment is asked for. Record or entry i must lie inside what is handed over. */

static inline uint32_t desk_get_number(const uint8_t *at) {
    return (uint32_t)at[0] | (uint32_t)at[1] << 8 | (uint32_t)at[2] << 16 | (uint32_t)at[3] << 24;
}
static inline void desk_put_number(uint8_t *at, uint32_t n) {
    at[0] = (uint8_t)(n & 255); at[1] = (uint8_t)(n >> 8 & 255); at[2] = (uint8_t)(n >> 16 & 255); at[3] = (uint8_t)(n >> 24);
}

struct desk_range { uint32_t start, end; };
struct desk_record { uint32_t kind, depth, start, end, parent; };
struct desk_class_entry { struct desk_range token; uint32_t token_class; };
/* A name as it stands in the source, and without a matching pair of backticks or double quotes. The same range twice where the token is no QuotedIdentifier,
 * or its marks do not match, or it is a lone mark; absent twice where there is no name. Two names are one if the bytes of their inner ranges are. */
struct desk_name { struct desk_range outer, inner; };
/* The token is the name's outer range, the name its inner one. The definition is a node's span, any two numbers: it may lie outside the source, or end before
 * it starts. Cut it by desk_cut_range before you read there. */
struct desk_binding_entry { struct desk_range token, name, definition; };
struct desk_reference_entry { uint32_t record; struct desk_name database, table, alias; };
struct desk_context_entry { uint32_t context; struct desk_range name; uint32_t argument; };
struct desk_everything_entry { struct desk_context_entry context; uint32_t root, with_names, table_aliases, column_aliases, table_refs; };

/* Is there no such range? */
static inline int desk_absent(struct desk_range r) { return r.start == DESK_NONE && r.end == DESK_NONE; }

/* Is there no such name? */
static inline int desk_unnamed(struct desk_name n) { return desk_absent(n.outer); }

/* A node's start or end as far as the source has it: from desk_cut of its start up to desk_cut of its end no span leads outside the source. */
static inline size_t desk_cut(uint32_t at, size_t source_len) { return at < source_len ? at : source_len; }

/* Any range as far as the source has it: start <= end <= source_len; nothing of one that is absent or empty. */
static inline struct desk_range desk_cut_range(struct desk_range r, size_t source_len) {
    struct desk_range cut = {(uint32_t)desk_cut(r.start, source_len), (uint32_t)desk_cut(r.end, source_len)};
    if (cut.end < cut.start) cut.end = cut.start;
    return cut;
}

static inline struct desk_range desk_get_range(const uint8_t *at) {
    struct desk_range r = {desk_get_number(at), desk_get_number(at + 4)};
    return r;
}
static inline void desk_put_range(uint8_t *at, struct desk_range r) { desk_put_number(at, r.start); desk_put_number(at + 4, r.end); }

static inline struct desk_name desk_get_name(const uint8_t *at) {
    struct desk_name n = {desk_get_range(at), desk_get_range(at + 8)};
    return n;
}
static inline void desk_put_name(uint8_t *at, struct desk_name n) { desk_put_range(at, n.outer); desk_put_range(at + 8, n.inner); }

static inline struct desk_record desk_get_record(const uint8_t *table, size_t i) {
    const uint8_t *at = table + DESK_RECORD_BYTES * i;
    struct desk_record r = {desk_get_number(at), desk_get_number(at + 4), desk_get_number(at + 8), desk_get_number(at + 12), desk_get_number(at + 16)};
    return r;
}
static inline void desk_put_record(uint8_t *table, size_t i, struct desk_record r) {
    table += DESK_RECORD_BYTES * i; desk_put_number(table, r.kind); desk_put_number(table + 4, r.depth); desk_put_number(table + 8, r.start);
    desk_put_number(table + 12, r.end); desk_put_number(table + 16, r.parent);
}
static inline struct desk_class_entry desk_get_class(const uint8_t *out, size_t i) {
    struct desk_class_entry e = {desk_get_range(out + DESK_CLASS_BYTES * i), desk_get_number(out + DESK_CLASS_BYTES * i + 8)};
    return e;
}
static inline void desk_put_class(uint8_t *out, size_t i, struct desk_class_entry e) {
    desk_put_range(out + DESK_CLASS_BYTES * i, e.token); desk_put_number(out + DESK_CLASS_BYTES * i + 8, e.token_class);
}
static inline struct desk_binding_entry desk_get_binding(const uint8_t *out, size_t i) {
    const uint8_t *at = out + DESK_BINDING_BYTES * i;
    struct desk_binding_entry e = {desk_get_range(at), desk_get_range(at + 8), desk_get_range(at + 16)};
    return e;
}
static inline void desk_put_binding(uint8_t *out, size_t i, struct desk_binding_entry e) {
    out += DESK_BINDING_BYTES * i; desk_put_range(out, e.token); desk_put_range(out + 8, e.name); desk_put_range(out + 16, e.definition);
}
static inline struct desk_reference_entry desk_get_reference(const uint8_t *out, size_t i) {
    const uint8_t *at = out + DESK_REFERENCE_BYTES * i;
    struct desk_reference_entry e = {desk_get_number(at), desk_get_name(at + 4), desk_get_name(at + 20), desk_get_name(at + 36)};
    return e;
}
static inline void desk_put_reference(uint8_t *out, size_t i, struct desk_reference_entry e) {
    out += DESK_REFERENCE_BYTES * i; desk_put_number(out, e.record);
    desk_put_name(out + 4, e.database); desk_put_name(out + 20, e.table); desk_put_name(out + 36, e.alias);
}
static inline struct desk_context_entry desk_get_context(const uint8_t *out, size_t i) {
    const uint8_t *at = out + DESK_CONTEXT_BYTES * i;
    struct desk_context_entry e = {desk_get_number(at), desk_get_range(at + 4), desk_get_number(at + 12)};
    return e;
}
static inline void desk_put_context(uint8_t *out, size_t i, struct desk_context_entry e) {
    out += DESK_CONTEXT_BYTES * i; desk_put_number(out, e.context); desk_put_range(out + 4, e.name); desk_put_number(out + 12, e.argument);
}

static inline struct desk_everything_entry desk_get_everything(const uint8_t *out) {
    const uint8_t *at = out + DESK_CONTEXT_BYTES;
    struct desk_everything_entry e = {desk_get_context(out, 0), desk_get_number(at), desk_get_number(at + 4), desk_get_number(at + 8), desk_get_number(at + 12),
        desk_get_number(at + 16)};
    return e;
}
static inline void desk_put_everything(uint8_t *out, struct desk_everything_entry e) {
    desk_put_context(out, 0, e.context);
    out += DESK_CONTEXT_BYTES; desk_put_number(out, e.root); desk_put_number(out + 4, e.with_names); desk_put_number(out + 8, e.table_aliases);
    desk_put_number(out + 12, e.column_aliases); desk_put_number(out + 16, e.table_refs);
}

/* a record number: the entry of the openers left, and of the records above */
static inline uint32_t desk_get_opener(const uint8_t *out, size_t i) { return desk_get_number(out + DESK_OPENER_BYTES * i); }
static inline void desk_put_opener(uint8_t *out, size_t i, uint32_t record) { desk_put_number(out + DESK_OPENER_BYTES * i, record); }
static inline uint32_t desk_get_above(const uint8_t *out, size_t i) { return desk_get_number(out + DESK_ABOVE_BYTES * i); }
static inline void desk_put_above(uint8_t *out, size_t i, uint32_t record) { desk_put_number(out + DESK_ABOVE_BYTES * i, record); }

/* ---- the questions. In what follows, refusals 1 to 6 are those of the table and the source: 1, 2, then 3, 4, 5, 12 and 6. */

/* Is the table admitted? Answer: 0. Refusals 1 to 6. */
uint64_t desk_check(const uint8_t *table, size_t table_len, const uint8_t *source, size_t source_len);

/* ---- the whole page. Answer of a list: the entries written. Refusals 1 to 6, then 7 */

/* The classed tokens, in order: entries of DESK_CLASS_BYTES. */
uint64_t desk_token_classes(const uint8_t *table, size_t table_len, const uint8_t *source, size_t source_len, uint8_t *out, size_t out_len);

/* The opening brackets that no closer fits, in order: entries of DESK_OPENER_BYTES. */
uint64_t desk_openers_left(const uint8_t *table, size_t table_len, const uint8_t *source, size_t source_len, uint8_t *out, size_t out_len);

/* The opener that a message ("expected )" ..) speaks of. Answer: its record, or DESK_NONE. Refusals 1 to 6. */
uint64_t desk_bracket_hint(const uint8_t *table, size_t table_len, const uint8_t *source, size_t source_len, const uint8_t *message, size_t message_len);

/* ---- the scope of a root, any node of the table. Answer: the entries written. Refusals 1 to 6, then 8, then 7 */

/* The names that WITH gives: entries of DESK_BINDING_BYTES. */
uint64_t desk_with_names(const uint8_t *table, size_t table_len, const uint8_t *source, size_t source_len, uint32_t root, uint8_t *out, size_t out_len);

/* The aliases of tables: entries of DESK_BINDING_BYTES. */
uint64_t desk_table_aliases(const uint8_t *table, size_t table_len, const uint8_t *source, size_t source_len, uint32_t root, uint8_t *out, size_t out_len);

/* The aliases of columns: entries of DESK_BINDING_BYTES. */
uint64_t desk_column_aliases(const uint8_t *table, size_t table_len, const uint8_t *source, size_t source_len, uint32_t root, uint8_t *out, size_t out_len);

/* The tables that FROM and JOIN name: entries of DESK_REFERENCE_BYTES. A table is listed once for each FROM or JOIN
 * that reaches it: `FROM a JOIN b` gives a, b, b. */
uint64_t desk_table_refs(const uint8_t *table, size_t table_len, const uint8_t *source, size_t source_len, uint32_t root, uint8_t *out, size_t out_len);

/* ---- upward. Answer: the entries written. Refusals 1 to 6, then 8, then 7 */

/* The records above a record, which may be a node or a token: its parent, then that one's, up to record 0. As many as it is deep: entries of DESK_ABOVE_BYTES. */
uint64_t desk_records_above(const uint8_t *table, size_t table_len, const uint8_t *source, size_t source_len, uint32_t record, uint8_t *out, size_t out_len);

/* ---- at a cursor. Refusals 1 to 6, then 7 where there is a list */

/* What is being typed: one entry of DESK_CONTEXT_BYTES. Answer: 1. */
uint64_t desk_cursor_context(const uint8_t *table, size_t table_len, const uint8_t *source, size_t source_len, uint32_t offset, uint8_t *out, size_t out_len);

/* What is being typed at each of many cursors: `offsets` has DESK_OFFSET_BYTES for each, at most DESK_OFFSETS_MAX, in any order, and one may come twice.
 * Entries of DESK_CONTEXT_BYTES in the order of the offsets, each what desk_cursor_context gives for its offset: the table is checked once for all.
 * Answer: the entries written; no offsets, no entries. Refusals 1 and 2, then 10, then 3 to 6, then 7. A refusal is of the whole call. */
uint64_t desk_cursor_contexts(const uint8_t *table, size_t table_len, const uint8_t *source, size_t source_len, const uint8_t *offsets, size_t offsets_len, uint8_t *out, size_t out_len);

/* The statement under the offset, to be run with a key. Answer: its record, or DESK_NONE.
 * A candidate is a statement (kinds 4 to 13) that is not empty and holds the offset, both ends counted, and so do all nodes above it. DESK_NONE is
 * given exactly if there is no candidate; else the record given is a candidate that has none inside it, and of all such the first on the page: of two side
 * by side at one offset, the earlier. A node's span may hold any numbers, so take the text by desk_cut_range. */
uint64_t desk_enclosing_statement(const uint8_t *table, size_t table_len, const uint8_t *source, size_t source_len, uint32_t offset);

/* The root whose scope is offered: the deepest subquery around the offset, else the statement, else record 0. Answer: its record. */
uint64_t desk_cursor_root(const uint8_t *table, size_t table_len, const uint8_t *source, size_t source_len, uint32_t offset);

/* The WITH names that can be used at the offset: that root's own, then, where the root is a subquery, those that it sees of each query around it, nearest
 * first. Of a WITH clause whose item holds the subquery, that item and the later ones are left out. Entries of DESK_BINDING_BYTES. */
uint64_t desk_with_names_at(const uint8_t *table, size_t table_len, const uint8_t *source, size_t source_len, uint32_t offset, uint8_t *out, size_t out_len);

/* The aliases of tables and of columns, and the tables, of that root alone: no entry of a query around it or inside it is among them. Entries as above. */
uint64_t desk_table_aliases_at(const uint8_t *table, size_t table_len, const uint8_t *source, size_t source_len, uint32_t offset, uint8_t *out, size_t out_len);
uint64_t desk_column_aliases_at(const uint8_t *table, size_t table_len, const uint8_t *source, size_t source_len, uint32_t offset, uint8_t *out, size_t out_len);
uint64_t desk_table_refs_at(const uint8_t *table, size_t table_len, const uint8_t *source, size_t source_len, uint32_t offset, uint8_t *out, size_t out_len);

/* All of this in one call, as a desk asks it at each key; the table is checked once. `out` gets one entry of DESK_EVERYTHING_BYTES: what desk_cursor_context gives,
 * what desk_cursor_root answers, and how many entries each list has. Each list stands in a buffer of its own, as its own question writes it: the WITH names, the
 * aliases of tables, those of columns, and the tables. Answer: 1. Refusals 1 to 6, then 7 for the first buffer without room, in this order; its detail is 1 for the
 * entry, else the entries that the list needs. Then no byte of any buffer was touched: give every list's buffer room for that many entries, and ask again,
 * which is four times at most. No two of the buffers may overlap. */
uint64_t desk_everything_at(const uint8_t *table, size_t table_len, const uint8_t *source, size_t source_len, uint32_t offset, uint8_t *out, size_t out_len, uint8_t *names, size_t names_len, uint8_t *aliases, size_t aliases_len, uint8_t *columns, size_t columns_len, uint8_t *refs, size_t refs_len);

#ifdef __cplusplus
}
#endif
#endif
