//! Where the port differs from the Rust, on both sides: what docs/DIFFERENCES.md says of trees, options and chunks that
//! the parser and the walk never make, or that are beyond a limit.
use encoder::stored::stored;
use felgutrosa::Reason;
use oracle::formatting::oracle_access::{PlainChunk, join};
use oracle::formatting::{FormattingOptions, format};
use oracle::parser::*;
use oracle::{build, parse};
use std::panic::catch_unwind;

/// The text of the Rust under the default options, or none where it panics.
fn rust(tokens: Vec<Token>) -> Option<String> {
    let tree = build::tree_of_tokens(tokens);
    let options = FormattingOptions::default();
    catch_unwind(move || format(build::FILE, tree, options)).ok()
}

/// The text of the port under the default options, or why it is refused.
fn port(tokens: &[Token]) -> Result<String, Reason> {
    let (mut work, mut text) = (vec![0; 1_048_576], vec![0; 4_000_000]);
    let length = felgutrosa::format(&stored(tokens).unwrap(), &[0], &mut work, &mut text)
        .map_err(|refusal| refusal.reason)?;
    Ok(String::from_utf8(text[..length].to_vec()).unwrap())
}

fn tokens(source: &str) -> Vec<Token> {
    parse(source).0.unwrap()
}

/// The Rust and the port print the first token as it is after a change as they do before it.
fn is_printed_the_same(source: &str, change: impl Fn(&mut Token)) {
    let (before, mut after) = (tokens(source), tokens(source));
    change(&mut after[0]);
    assert_ne!(before, after, "{source}");
    assert_eq!(port(&before).unwrap(), rust(before).unwrap());
    assert_eq!(port(&after).unwrap(), rust(after.clone()).unwrap());
    assert_eq!(rust(tokens(source)), rust(after));
}

fn changed(source: &str, change: impl Fn(&mut Token)) -> Vec<Token> {
    let mut tokens = tokens(source);
    change(&mut tokens[0]);
    tokens
}

fn code(text: &str) -> String {
    format!("{}{text}", " ".repeat(20))
}

fn trivia_of<T>(held: &Located<T>, items: Vec<Trivia>) -> Option<Box<Located<Vec<Trivia>>>> {
    Some(Box::new(Located::new(held.span, items)))
}

// ---------------------------------------------------------------- one file's tokens

#[test]
fn a_missing_file() {
    let tree = build::tree_of_tokens(vec![]);
    let missing = || format("other.asm", tree, FormattingOptions::default());
    assert!(catch_unwind(std::panic::AssertUnwindSafe(missing)).is_err());
}

// ---------------------------------------------------------------- what only a tree made by hand has

const IF: &str = ".if 1 { nop } else { rts }";

#[test]
fn an_else_without_its_block() {
    let file = changed(IF, |token| {
        let Token::If { else_, .. } = token else {
            panic!()
        };
        *else_ = None;
    });
    assert_eq!(port(&file), Err(Reason::TreeLayout));
    assert_eq!(rust(file), None);
}

#[test]
fn a_block_without_its_else() {
    let file = changed(IF, |token| {
        let Token::If { tag_else, .. } = token else {
            panic!()
        };
        *tag_else = None;
    });
    assert_eq!(port(&file), Err(Reason::TreeLayout));
    assert!(!rust(file).unwrap().contains("rts"));
}

#[test]
fn other_braces_and_another_colon() {
    let file = changed("{ nop }", |token| {
        let Token::Braces { block, .. } = token else {
            panic!()
        };
        block.lparen.data = '(';
    });
    assert_eq!(port(&file), Err(Reason::TreeLayout));
    assert!(rust(file).unwrap().contains('('));
    let file = changed("a: nop", |token| {
        let Token::Label { colon, .. } = token else {
            panic!()
        };
        colon.data = '=';
    });
    assert_eq!(port(&file), Err(Reason::TreeLayout));
    assert!(rust(file).unwrap().contains("a: nop"));
}

/// A plain item is pushed by its `Display`, which shows its trivia; the encoder has no place for them.
#[test]
fn trivia_on_a_plain_item() {
    let file = changed(".file \"a\"", |token| {
        let Token::File { filename, .. } = token else {
            panic!()
        };
        let InterpolatedStringItem::String(plain) = &mut filename.items[0] else {
            panic!()
        };
        plain.trivia = trivia_of(
            plain,
            vec![
                Trivia::Whitespace("  ".into()),
                Trivia::CStyle("/* c */".into()),
            ],
        );
    });
    assert_eq!(port(&file).unwrap(), code(".file \"a\""));
    assert_eq!(rust(file).unwrap(), code(".file \"  /* c */a\""));
}

// ---------------------------------------------------------------- what is not stored, and not printed either

#[test]
fn scopes_flags_paths_and_spans() {
    is_printed_the_same("{ nop }", |token| {
        let Token::Braces { scope, .. } = token else {
            panic!()
        };
        *scope = "other".into();
    });
    is_printed_the_same(".loop 2 { nop }", |token| {
        let Token::Loop { loop_scope, .. } = token else {
            panic!()
        };
        **loop_scope = "other".into();
    });
    is_printed_the_same(".import * from \"a\"", |token| {
        let Token::Import {
            import_scope,
            resolved_path,
            ..
        } = token
        else {
            panic!()
        };
        *import_scope = "other".into();
        *resolved_path = "other".into();
    });
    is_printed_the_same(".align 1", |token| {
        let Token::Align { value, .. } = token else {
            panic!()
        };
        let Expression::Factor { flags, .. } = &mut value.data else {
            panic!()
        };
        *flags = ExpressionFactorFlags::NOT;
    });
    is_printed_the_same("nop", |token| {
        let Token::Instruction(instruction) = token else {
            panic!()
        };
        instruction.mnemonic.span = instruction.mnemonic.span.subspan(0, 1);
    });
}

#[test]
fn trivia_without_items_and_trivia_of_trivia() {
    is_printed_the_same("nop", |token| {
        let Token::Instruction(Instruction { mnemonic, .. }) = token else {
            panic!()
        };
        mnemonic.trivia = trivia_of(mnemonic, vec![]);
    });
    is_printed_the_same("/* a */ nop", |token| {
        let Token::Instruction(Instruction { mnemonic, .. }) = token else {
            panic!()
        };
        let lost = trivia_of(mnemonic, vec![Trivia::CStyle("/* b */".into())]);
        mnemonic.trivia.as_mut().unwrap().trivia = lost;
    });
}

#[test]
fn the_parts_of_a_path_and_the_radix_of_a_number() {
    is_printed_the_same(".align a.b", |token| {
        let Token::Align { value, .. } = token else {
            panic!()
        };
        let Expression::Factor { factor, .. } = &mut value.data else {
            panic!()
        };
        let ExpressionFactor::IdentifierValue { path, .. } = &mut factor.data else {
            panic!()
        };
        path.data = IdentifierPath::new(&["a.b".into()]);
    });
    is_printed_the_same(".align $10", |token| {
        let Token::Align { value, .. } = token else {
            panic!()
        };
        let Expression::Factor { factor, .. } = &mut value.data else {
            panic!()
        };
        let ExpressionFactor::Number { value, .. } = &mut factor.data else {
            panic!()
        };
        value.data = Number::from_type(NumberType::Bin, "10");
    });
}

// ---------------------------------------------------------------- bytes above 127

#[test]
fn characters_beyond_ascii() {
    let file = tokens("nop // é");
    assert_eq!(port(&file), Err(Reason::NotAscii));
    assert!(rust(file).unwrap().ends_with("// é"));
    // A comment on a brace is lost, and its bytes are judged all the same.
    let file = tokens(".loop 2 /* é */ { nop }");
    assert_eq!(port(&file), Err(Reason::NotAscii));
    assert!(rust(file).unwrap().is_ascii());
    // Byte 50, where the comments begin, falls inside a character.
    assert_eq!(rust(tokens(&format!(".text \"{}\"", "é".repeat(40)))), None);
    // A `char` of two bytes has no stored form.
    let file = changed(".align (1)", |token| {
        let Token::Align { value, .. } = token else {
            panic!()
        };
        let Expression::Factor { factor, .. } = &mut value.data else {
            panic!()
        };
        let ExpressionFactor::ExprParens { lparen, .. } = &mut factor.data else {
            panic!()
        };
        lparen.data = 'é';
    });
    assert_eq!(port(&file), Err(Reason::TreeLayout));
    assert_eq!(rust(file).unwrap(), code(".align é1)"));
}

// ---------------------------------------------------------------- limits

/// The last source that is accepted, and the first that is not.
fn is_a_limit(accepted: &str, refused: &str, reason: Reason) {
    let file = tokens(accepted);
    assert_eq!(port(&file).unwrap(), rust(file).unwrap());
    let file = tokens(refused);
    assert_eq!(port(&file), Err(reason));
    assert!(rust(file).is_some());
}

#[test]
fn depth_and_length_of_a_tree() {
    let blocks = |count: usize| "{".repeat(count) + &"}".repeat(count);
    is_a_limit(&blocks(21), &blocks(22), Reason::TreeDepth);
    let parentheses = |count: usize| format!(".byte {}1{}", "(".repeat(count), ")".repeat(count));
    is_a_limit(&parentheses(28), &parentheses(29), Reason::TreeDepth);
    let comment = |length: usize| format!("// {}\n", "c".repeat(length));
    let rest = 65_535 - stored(&tokens(&comment(0))).unwrap().len();
    is_a_limit(&comment(rest), &comment(rest + 1), Reason::TreeLength);
}

#[test]
fn values_of_the_options() {
    let file = tokens("{\nnop\n}");
    let text = |set: fn(&mut FormattingOptions)| {
        let mut options = FormattingOptions::default();
        set(&mut options);
        format(build::FILE, build::tree_of_tokens(file.clone()), options)
    };
    assert!(text(|options| options.whitespace.indent = 65).contains(&" ".repeat(85)));
    assert!(text(|options| options.whitespace.label_margin = 256).contains(&" ".repeat(260)));
    let (mut work, mut lent) = ([0; 100], [0; 100]);
    let refusal = felgutrosa::format(&[24, 0, 0, 0], &[8, 65], &mut work, &mut lent).unwrap_err();
    assert_eq!((refusal.reason, refusal.place), (Reason::OptionsValue, 1));
}

// ---------------------------------------------------------------- chunk lists

fn chunk(indent: usize, text: &str) -> PlainChunk {
    PlainChunk {
        ty: 0,
        indent,
        text: text.into(),
    }
}

/// An empty chunk gives its line an indent, and as the last one keeps the last line from being
/// ended. `push_type` makes none.
#[test]
fn empty_chunks() {
    let set = |chunks: &[PlainChunk]| join(chunks, &FormattingOptions::default());
    assert_eq!(set(&[chunk(0, "nop")]), code("nop"));
    assert_eq!(set(&[chunk(0, "nop"), chunk(0, "")]), "");
    assert_eq!(set(&[chunk(4, ""), chunk(0, "nop")]), code("    nop"));
    let mut text = [0; 100];
    let refusal = felgutrosa::join_chunks(&[0, 0, 0], &[0], &mut text).unwrap_err();
    assert_eq!((refusal.reason, refusal.place), (Reason::ChunkLayout, 0));
}

#[test]
fn deep_chunks() {
    let set = join(&[chunk(4_097, "nop")], &FormattingOptions::default());
    assert_eq!(set.len(), 4_097 + 23);
    let mut text = [0; 5_000];
    let port = |indent: u16, text: &mut [u8]| {
        let [low, high] = indent.to_le_bytes();
        felgutrosa::join_chunks(&[4, low, high, 3, 0, b'n', b'o', b'p'], &[0], text)
    };
    assert_eq!(port(4_096, &mut text), Ok(4_096 + 23));
    assert_eq!(
        port(4_097, &mut text).unwrap_err().reason,
        Reason::ChunkLayout
    );
}
