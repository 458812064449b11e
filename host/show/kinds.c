/* The kinds by the names that a printed tree has them under, and a token's kind by its text. */
#include "show.h"
#include <string.h>

static const char *const nodes[] = {"Other", "File", "QueryList", "Error", "SelectStatement", "InsertStatement", "CreateStatement", "AlterStatement",
    "DeleteStatement", "UpdateStatement", "DropStatement", "ShowStatement", "ExplainStatement", "DescribeStatement", "WithClause", "SelectClause",
    "FromClause", "JoinClause", "PrewhereClause", "WhereClause", "GroupByClause", "HavingClause", "OrderByClause", "SettingsClause", "SettingList",
    "EngineClause", "FormatClause", "InsertFormatClause", "JoinConstraint", "WithExpressionItem", "SubqueryExpression", "ColumnList", "ExpressionList",
    "TableIdentifier", "TableExpression", "TableAlias", "ColumnAlias", "ColumnDefinition", "ColumnTypeDefinition", "ColumnCodec", "DataType",
    "DataTypeParameters", "NestedDataType", "FunctionCall", "AggregateFunction", "TableFunction", "Identifier", "ColumnReference", "QualifiedName",
    "QueryParameterExpression", "DatabaseDefinition", "TableDefinition", "ViewDefinition", "MaterializedViewDefinition", "DictionaryDefinition", "Expression"};

const char *kind_name(uint32_t kind) { return kind <= DESK_KIND_LAST_NODE ? nodes[kind] : "a token"; }

/* A name that is not listed is one of the parser's other kinds, and becomes another node; a number stands for itself, so that a refusal can be seen. */
int kind_named(const char *name, size_t len, uint32_t *kind) {
    *kind = DESK_KIND_OTHER_NODE;
    for (uint32_t i = 0; i < sizeof nodes / sizeof *nodes; i++)
        if (strlen(nodes[i]) == len && !memcmp(nodes[i], name, len)) { *kind = i; return 1; }
    if (len && len < 10 && strspn(name, "0123456789") == len) {
        for (size_t i = 0; i < len; i++) *kind = *kind * 10 + (uint32_t)(name[i] - '0');
        return 1;
    }
    if (!len || name[0] < 'A' || name[0] > 'Z') return -1;
    for (size_t i = 1; i < len; i++)
        if (!((name[i] >= 'a' && name[i] <= 'z') || (name[i] >= 'A' && name[i] <= 'Z'))) return -1;
    return 0;
}

static int is(const uint8_t *text, size_t len, const char *word) { return strlen(word) == len && !memcmp(text, word, len); }

static int one_of(uint8_t byte, const char *bytes) { return byte && strchr(bytes, byte) != NULL; }

static int digit(uint8_t byte) { return byte >= '0' && byte <= '9'; }

uint32_t token_kind(const uint8_t *text, size_t len) {
    static const struct { const char *word; uint32_t kind; } marks[] = {
        {",", DESK_KIND_COMMA}, {"(", DESK_KIND_OPENING_ROUND}, {"[", DESK_KIND_OPENING_SQUARE}, {"{", DESK_KIND_OPENING_CURLY},
        {")", DESK_KIND_CLOSING_ROUND}, {"]", DESK_KIND_CLOSING_SQUARE}, {"}", DESK_KIND_CLOSING_CURLY}, {"+", DESK_KIND_PLUS}, {"-", DESK_KIND_MINUS},
        {"*", DESK_KIND_STAR}, {"/", DESK_KIND_SLASH}, {"%", DESK_KIND_PERCENT}, {"=", DESK_KIND_EQUALS}, {"==", DESK_KIND_EQUALS},
        {"!=", DESK_KIND_NOT_EQUALS}, {"<>", DESK_KIND_NOT_EQUALS}, {"<", DESK_KIND_LESS}, {">", DESK_KIND_GREATER}, {"<=", DESK_KIND_LESS_OR_EQUALS},
        {">=", DESK_KIND_GREATER_OR_EQUALS}, {"<=>", DESK_KIND_SPACESHIP}, {"||", DESK_KIND_CONCATENATION}, {"::", DESK_KIND_DOUBLE_COLON},
        {"->", DESK_KIND_ARROW}};
    for (size_t i = 0; i < sizeof marks / sizeof *marks; i++)
        if (is(text, len, marks[i].word)) return marks[i].kind;
    uint8_t first = len ? text[0] : 0, second = len > 1 ? text[1] : 0;
    if (one_of(first, " \t\r\n")) return DESK_KIND_WHITESPACE;
    if (first == '#' || (first == '-' && second == '-') || (first == '/' && one_of(second, "*/"))) return DESK_KIND_COMMENT;
    if (first == '\'') return DESK_KIND_STRING_TOKEN;
    if (first == '"' || first == '`') return DESK_KIND_QUOTED_IDENTIFIER;
    if (digit(first) || (first == '.' && digit(second))) return DESK_KIND_NUMBER;
    if (first == '$' && len > 1 && text[len - 1] == '$') return DESK_KIND_HERE_DOC;
    if (first == '_' || first >= 128 || (first >= 'a' && first <= 'z') || (first >= 'A' && first <= 'Z')) return DESK_KIND_BARE_WORD;
    return DESK_KIND_OTHER_TOKEN;
}
