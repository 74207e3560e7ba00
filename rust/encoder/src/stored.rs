//! The stored form of a file's tokens, for the proved formatter (`felgutrosa::format`).
//!
//! One file to drop into mos-core, as `mos-core/src/formatting/stored.rs` with `pub mod stored;` in
//! `formatting/mod.rs`. It reads the syntax tree by its public fields alone. A record is a kind, a
//! map with a bit for each field that stands, its trivia, and its fields in the order in which
//! ast.rs declares them.
use crate::parser::*;
use std::fmt::{self, Display};

/// The tokens have no stored form: a number of trivia, items or bytes is above 65,535. All else is
/// judged by the formatter.
#[derive(Clone, Copy, Debug, PartialEq, Eq)]
pub struct TooLong;

impl Display for TooLong {
    fn fmt(&self, f: &mut fmt::Formatter) -> fmt::Result {
        f.write_str("a number of trivia, items or bytes is above 65,535")
    }
}

impl std::error::Error for TooLong {}

/// The stored form of the tokens of a file.
pub fn stored(tokens: &[Token]) -> Result<Vec<u8>, TooLong> {
    let mut writer = Writer {
        out: vec![],
        too_long: false,
    };
    writer.tokens(tokens);
    if writer.too_long {
        Err(TooLong)
    } else {
        Ok(writer.out)
    }
}

type StoredTrivia = Option<Box<Located<Vec<Trivia>>>>;

/// The kinds beside those of the tokens, which have the numbers 0 to 23 in declared order.
mod kind {
    pub const LIST: u8 = 24;
    pub const LEAF: u8 = 25;
    pub const PATH_ITEM: u8 = 26;
    pub const BLOCK: u8 = 27;
    pub const BINARY_EXPRESSION: u8 = 28;
    pub const FACTOR: u8 = 29;
    pub const CURRENT_PROGRAM_COUNTER: u8 = 30;
    pub const EXPR_PARENS: u8 = 31;
    pub const FUNCTION_CALL: u8 = 32;
    pub const IDENTIFIER_VALUE: u8 = 33;
    pub const NUMBER: u8 = 34;
    pub const STRING_FACTOR: u8 = 35;
    pub const INTERPOLATED_STRING: u8 = 36;
    pub const OPERAND: u8 = 37;
    pub const REGISTER_SUFFIX: u8 = 38;
    pub const IMPORT_AS: u8 = 39;
    pub const IMPORT_ALL: u8 = 40;
    pub const SPECIFIC_IMPORT_ARG: u8 = 41;
    pub const ARG_ITEM: u8 = 42;
}

struct Writer {
    out: Vec<u8>,
    too_long: bool,
}

/// A record whose fields are being written: where its map stands, and the bit of the next field.
struct Fields<'a> {
    writer: &'a mut Writer,
    map: usize,
    bit: u8,
}

impl Fields<'_> {
    /// A field that always stands.
    fn must(self, write: impl FnOnce(&mut Writer)) -> Self {
        self.writer.out[self.map] |= self.bit;
        write(self.writer);
        self.absent()
    }

    /// A field that is an `Option`.
    fn may<T>(self, field: &Option<T>, write: impl FnOnce(&mut Writer, &T)) -> Self {
        match field {
            Some(value) => self.must(|writer| write(writer, value)),
            None => self.absent(),
        }
    }

    fn absent(mut self) -> Self {
        self.bit <<= 1;
        self
    }
}

impl Writer {
    /// A number of two bytes, low byte first.
    fn number(&mut self, number: usize) {
        self.too_long |= number > 65_535;
        self.out.extend((number as u16).to_le_bytes());
    }

    fn text(&mut self, text: &str) {
        self.number(text.len());
        self.out.extend(text.as_bytes());
    }

    // ---- records

    /// Begins a record: kind, map and trivia.
    fn record(&mut self, kind: u8, trivia: &StoredTrivia) -> Fields<'_> {
        let map = self.out.len() + 1;
        self.out.extend([kind, 0]);
        let items = trivia.as_ref().map_or(&[][..], |trivia| &trivia.data);
        if !items.is_empty() {
            self.out[map] = 1;
            self.number(items.len());
            items.iter().for_each(|item| self.trivium(item));
        }
        Fields {
            writer: self,
            map,
            bit: 2,
        }
    }

    /// A record that ast.rs does not hold as `Located`.
    fn bare(&mut self, kind: u8) -> Fields<'_> {
        self.record(kind, &None)
    }

    fn trivium(&mut self, item: &Trivia) {
        let (code, text) = match item {
            Trivia::Whitespace(text) => (0, text),
            Trivia::NewLine => return self.out.push(1),
            Trivia::CStyle(text) => (2, text),
            Trivia::CppStyle(text) => (3, text),
        };
        self.out.push(code);
        self.text(text);
    }

    fn leaf_of(&mut self, kind: u8, text: &str, trivia: &StoredTrivia) {
        let stands = (!text.is_empty()).then_some(text);
        self.record(kind, trivia)
            .may(&stands, |writer, text| writer.text(text));
    }

    /// A leaf that holds what it shows.
    fn leaf<T: Display>(&mut self, located: &Located<T>) {
        self.leaf_of(kind::LEAF, &located.data.to_string(), &located.trivia);
    }

    /// A leaf that holds the place of a case in its enum.
    fn case<T: Clone>(&mut self, located: &Located<T>, number: impl Fn(T) -> u8) {
        let number = number(located.data.clone());
        self.leaf_of(kind::LEAF, &char::from(number).to_string(), &located.trivia);
    }

    fn list<T>(&mut self, items: &[T], write: impl Fn(&mut Writer, &T)) {
        self.bare(kind::LIST);
        self.number(items.len());
        items.iter().for_each(|item| write(self, item));
    }

    fn arguments<T>(&mut self, items: &[ArgItem<T>], write: impl Fn(&mut Writer, &Located<T>)) {
        self.list(items, |writer, (value, comma)| {
            writer
                .bare(kind::ARG_ITEM)
                .must(|w| write(w, value))
                .may(comma, Writer::leaf);
        });
    }

    // ---- expressions, operands, strings

    fn expression(&mut self, expression: &Located<Expression>) {
        self.expression_of(&expression.data, &expression.trivia);
    }

    fn expression_of(&mut self, expression: &Expression, trivia: &StoredTrivia) {
        match expression {
            Expression::BinaryExpression(binary) => self
                .record(kind::BINARY_EXPRESSION, trivia)
                .must(|w| w.case(&binary.op, |op| op as u8))
                .must(|w| w.expression(&binary.lhs))
                .must(|w| w.expression(&binary.rhs)),
            Expression::Factor {
                factor,
                flags: _,
                tag_not,
                tag_neg,
            } => self
                .record(kind::FACTOR, trivia)
                .must(|w| w.factor(factor))
                .may(tag_not, Writer::leaf)
                .may(tag_neg, Writer::leaf),
        };
    }

    fn factor(&mut self, factor: &Located<ExpressionFactor>) {
        let trivia = &factor.trivia;
        match &factor.data {
            ExpressionFactor::CurrentProgramCounter(star) => self
                .record(kind::CURRENT_PROGRAM_COUNTER, trivia)
                .must(|w| w.leaf(star)),
            ExpressionFactor::ExprParens {
                lparen,
                inner,
                rparen,
            } => self
                .record(kind::EXPR_PARENS, trivia)
                .must(|w| w.leaf(lparen))
                .must(|w| w.expression(inner))
                .must(|w| w.leaf(rparen)),
            ExpressionFactor::FunctionCall {
                name,
                lparen,
                args,
                rparen,
            } => self
                .record(kind::FUNCTION_CALL, trivia)
                .must(|w| w.leaf(name))
                .must(|w| w.leaf(lparen))
                .must(|w| w.arguments(args, Writer::expression))
                .must(|w| w.leaf(rparen)),
            ExpressionFactor::IdentifierValue { path, modifier } => self
                .record(kind::IDENTIFIER_VALUE, trivia)
                .must(|w| w.leaf(path))
                .may(modifier, |w, modifier| w.case(modifier, |case| case as u8)),
            ExpressionFactor::Number { ty, value } => self
                .record(kind::NUMBER, trivia)
                .must(|w| w.case(ty, |case| case as u8))
                .must(|w| w.leaf(value)),
            ExpressionFactor::InterpolatedString(string) => self
                .record(kind::STRING_FACTOR, trivia)
                .must(|w| w.string(string)),
        };
    }

    fn string(&mut self, string: &InterpolatedString) {
        self.bare(kind::INTERPOLATED_STRING)
            .must(|w| w.leaf(&string.lquote))
            .must(|w| w.list(&string.items, Writer::string_item));
    }

    fn string_item(&mut self, item: &InterpolatedStringItem) {
        match item {
            // The parser never gives a plain item trivia, and its record has no place for them.
            InterpolatedStringItem::String(plain) => self.leaf_of(kind::LEAF, &plain.data, &None),
            InterpolatedStringItem::IdentifierPath(path) => {
                self.leaf_of(kind::PATH_ITEM, &path.data.to_string(), &path.trivia)
            }
        }
    }

    fn operand(&mut self, operand: &Operand) {
        let mode = char::from(operand.addressing_mode as u8).to_string();
        self.bare(kind::OPERAND)
            .must(|w| w.expression(&operand.expr))
            .may(&operand.lchar, Writer::leaf)
            .may(&operand.rchar, Writer::leaf)
            .must(|w| w.leaf_of(kind::LEAF, &mode, &None))
            .may(&operand.suffix, Writer::suffix);
    }

    fn suffix(&mut self, suffix: &RegisterSuffix) {
        self.bare(kind::REGISTER_SUFFIX)
            .must(|w| w.leaf(&suffix.comma))
            .must(|w| w.case(&suffix.register, |case| case as u8));
    }

    // ---- imports

    fn import_arguments(&mut self, arguments: &ImportArgs) {
        match arguments {
            ImportArgs::All(star, import_as) => {
                self.bare(kind::IMPORT_ALL)
                    .must(|w| w.leaf(star))
                    .may(import_as, Writer::import_as);
            }
            ImportArgs::Specific(list) => self.arguments(list, |w, item| {
                w.record(kind::SPECIFIC_IMPORT_ARG, &item.trivia)
                    .must(|w| w.leaf(&item.data.path))
                    .may(&item.data.as_, Writer::import_as);
            }),
        }
    }

    fn import_as(&mut self, import_as: &ImportAs) {
        self.bare(kind::IMPORT_AS)
            .must(|w| w.leaf(&import_as.tag))
            .must(|w| w.leaf(&import_as.path));
    }

    // ---- tokens and blocks

    fn tokens(&mut self, tokens: &[Token]) {
        self.list(tokens, |w, token| w.token(token, &None));
    }

    fn block(&mut self, block: &Block) {
        self.bare(kind::BLOCK)
            .must(|w| w.leaf(&block.lparen))
            .must(|w| w.tokens(&block.inner))
            .must(|w| w.leaf(&block.rparen));
    }

    /// A token, in declared order. Only a `ConfigPair`'s value is held as `Located` and has trivia
    /// of its own.
    fn token(&mut self, token: &Token, trivia: &StoredTrivia) {
        match token {
            Token::Align { tag, value } => self
                .record(0, trivia)
                .must(|w| w.leaf(tag))
                .must(|w| w.expression(value)),
            Token::Assert {
                tag,
                value,
                failure_message,
            } => self
                .record(1, trivia)
                .must(|w| w.leaf(tag))
                .must(|w| w.expression(value))
                .may(failure_message, Writer::string),
            Token::Braces { block, .. } => self.record(2, trivia).must(|w| w.block(block)),
            Token::Config(block) => self.record(3, trivia).must(|w| w.block(block)),
            Token::ConfigPair { key, eq, value } => self
                .record(4, trivia)
                .must(|w| w.leaf(key))
                .must(|w| w.leaf(eq))
                .must(|w| w.token(&value.data, &value.trivia)),
            Token::Data { values, size } => self
                .record(5, trivia)
                .must(|w| w.arguments(values, Writer::expression))
                .must(|w| w.case(size, |case| case as u8)),
            Token::Definition { tag, id, value } => self
                .record(6, trivia)
                .must(|w| w.leaf(tag))
                .must(|w| w.leaf(id))
                .may(value, |w, value| w.token(value, &None)),
            Token::Eof(eof) => self
                .record(7, trivia)
                .must(|w| w.leaf_of(kind::LEAF, "", &eof.trivia)),
            Token::Error(error) => self.record(8, trivia).must(|w| w.leaf(error)),
            Token::Expression(expression) => self
                .record(9, trivia)
                .must(|w| w.expression_of(expression, &None)),
            Token::If {
                tag_if,
                value,
                if_,
                tag_else,
                else_,
            } => self
                .record(10, trivia)
                .must(|w| w.leaf(tag_if))
                .must(|w| w.expression(value))
                .must(|w| w.block(if_))
                .may(tag_else, Writer::leaf)
                .may(else_, Writer::block),
            Token::Import {
                tag,
                args,
                from,
                filename,
                block,
                ..
            } => self
                .record(11, trivia)
                .must(|w| w.leaf(tag))
                .must(|w| w.import_arguments(args))
                .must(|w| w.leaf(from))
                .must(|w| w.string(filename))
                .may(block, Writer::block),
            Token::File { tag, filename } => self
                .record(12, trivia)
                .must(|w| w.leaf(tag))
                .must(|w| w.string(filename)),
            Token::Instruction(instruction) => self
                .record(13, trivia)
                .must(|w| w.case(&instruction.mnemonic, |case| case as u8))
                .may(&instruction.operand, Writer::operand),
            Token::Label { id, colon, block } => self
                .record(14, trivia)
                .must(|w| w.leaf(id))
                .must(|w| w.leaf(colon))
                .may(block, Writer::block),
            Token::Loop {
                tag, expr, block, ..
            } => self
                .record(15, trivia)
                .must(|w| w.leaf(tag))
                .must(|w| w.expression(expr))
                .must(|w| w.block(block)),
            Token::MacroDefinition {
                tag,
                id,
                lparen,
                args,
                rparen,
                block,
            } => self
                .record(16, trivia)
                .must(|w| w.leaf(tag))
                .must(|w| w.leaf(id))
                .must(|w| w.leaf(lparen))
                .must(|w| w.arguments(args, Writer::leaf))
                .must(|w| w.leaf(rparen))
                .must(|w| w.block(block)),
            Token::MacroInvocation {
                id,
                lparen,
                args,
                rparen,
            } => self
                .record(17, trivia)
                .must(|w| w.leaf(id))
                .must(|w| w.leaf(lparen))
                .must(|w| w.arguments(args, Writer::expression))
                .must(|w| w.leaf(rparen)),
            Token::ProgramCounterDefinition { star, eq, value } => self
                .record(18, trivia)
                .must(|w| w.leaf(star))
                .must(|w| w.leaf(eq))
                .must(|w| w.expression(value)),
            Token::Segment { tag, id, block } => self
                .record(19, trivia)
                .must(|w| w.leaf(tag))
                .must(|w| w.expression(id))
                .may(block, Writer::block),
            Token::Test { tag, id, block } => self
                .record(20, trivia)
                .must(|w| w.leaf(tag))
                .must(|w| w.expression(id))
                .must(|w| w.block(block)),
            Token::Text {
                tag,
                encoding,
                text,
            } => self
                .record(21, trivia)
                .must(|w| w.leaf(tag))
                .may(encoding, |w, encoding| w.case(encoding, |case| case as u8))
                .must(|w| w.expression(text)),
            Token::Trace {
                tag,
                lparen,
                args,
                rparen,
            } => self
                .record(22, trivia)
                .must(|w| w.leaf(tag))
                .may(lparen, Writer::leaf)
                .must(|w| w.arguments(args, Writer::expression))
                .may(rparen, Writer::leaf),
            Token::VariableDefinition { ty, id, eq, value } => self
                .record(23, trivia)
                .must(|w| w.case(ty, |case| case as u8))
                .must(|w| w.leaf(id))
                .must(|w| w.leaf(eq))
                .must(|w| w.expression(value)),
        };
    }
}
