//! Stands in for parser/config_map.rs, which is not among the files that are read.
//! `{ key = value ... }`, a value being another map or an expression.
use super::*;

pub fn config_map(input: LocatedSpan) -> IResult<Token> {
    map_once(
        (mws(char('{')), many0(pair_), mws(char('}'))),
        |(lparen, inner, rparen)| {
            Token::Config(Block {
                lparen,
                inner,
                rparen,
            })
        },
    )(input)
}

fn config_value(input: LocatedSpan) -> IResult<Token> {
    alt((
        config_map,
        map(expression, |expr| Token::Expression(expr.data)),
    ))
    .parse(input)
}

fn pair_(input: LocatedSpan) -> IResult<Token> {
    map_once(
        (mws(key), ws(char('=')), ws(config_value)),
        |(key, eq, value)| Token::ConfigPair {
            key,
            eq,
            value: Box::new(value),
        },
    )(input)
}

fn key(input: LocatedSpan) -> IResult<String> {
    map_once(
        recognize(many1(alt((alphanumeric1, tag("_"), tag("-"))))),
        |s: LocatedSpan| s.fragment().to_string(),
    )(input)
}
