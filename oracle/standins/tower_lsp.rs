//! Stands in for the crate `tower_lsp`: only the types that the text names. None of them is compared.
pub mod lsp_types {
    #[derive(Clone)]
    pub struct SemanticTokenType(pub &'static str);

    impl SemanticTokenType {
        pub const KEYWORD: Self = Self("keyword");
        pub const FUNCTION: Self = Self("function");
        pub const STRING: Self = Self("string");
        pub const NUMBER: Self = Self("number");
        pub const COMMENT: Self = Self("comment");
        pub const OPERATOR: Self = Self("operator");
        pub const VARIABLE: Self = Self("variable");
        pub const TYPE: Self = Self("type");
        pub const PARAMETER: Self = Self("parameter");
        pub const PROPERTY: Self = Self("property");
    }

    #[derive(Clone)]
    pub struct SemanticTokenModifier(pub &'static str);

    pub struct SemanticTokensLegend {
        pub token_types: Vec<SemanticTokenType>,
        pub token_modifiers: Vec<SemanticTokenModifier>,
    }

    pub struct SemanticToken {
        pub delta_line: u32,
        pub delta_start: u32,
        pub length: u32,
        pub token_type: u32,
        pub token_modifiers_bitset: u32,
    }

    #[derive(Clone, Copy)]
    pub struct Position {
        pub line: u32,
        pub character: u32,
    }

    pub struct Range {
        pub start: Position,
        pub end: Position,
    }
}
