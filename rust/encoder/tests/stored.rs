//! What the encoder stores: read back it is the same tree, and the port formats it as the Rust
//! does.
use encoder::stored::{TooLong, stored};
use oracle::formatting::{FormattingOptions, format};
use oracle::parser::Token;
use oracle::stored::{Alphabet, read_tree};
use oracle::{build, case, parse};
use std::path::PathBuf;

/// Formats by the port, under the default options.
fn port(tree: &[u8]) -> Result<String, felgutrosa::Refusal> {
    let (mut work, mut text) = (vec![0; 1_048_576], vec![0; 4_000_000]);
    let length = felgutrosa::format(tree, &[0], &mut work, &mut text)?;
    Ok(String::from_utf8(text[..length].to_vec()).unwrap())
}

fn rust(tokens: Vec<Token>) -> String {
    format(
        build::FILE,
        build::tree_of_tokens(tokens),
        FormattingOptions::default(),
    )
}

/// The tokens of a file whose text the parser takes, with messages or without.
fn tokens(source: &str) -> Vec<Token> {
    parse(source).0.unwrap()
}

#[test]
fn the_sample_of_document_01() {
    let nop: Vec<Token> = tokens("nop")
        .into_iter()
        .filter(|token| !matches!(token, Token::Eof(_)))
        .collect();
    assert_eq!(stored(&nop).unwrap(), [24, 0, 1, 0, 13, 2, 25, 2, 1, 0, 33]);
    assert_eq!(stored(&[]).unwrap(), [24, 0, 0, 0]);
    assert_eq!(
        port(&stored(&nop).unwrap()),
        Ok(format!("{}nop", " ".repeat(20)))
    );
}

#[test]
fn sources_are_formatted_as_by_the_rust() {
    let folder = PathBuf::from(env!("CARGO_MANIFEST_DIR")).join("../../tools/oracle/sources");
    let mut seen = 0;
    for file in std::fs::read_dir(folder).unwrap() {
        let source = std::fs::read_to_string(file.unwrap().path()).unwrap();
        if !source.is_ascii() {
            continue;
        }
        let tokens = tokens(&source);
        assert_eq!(port(&stored(&tokens).unwrap()).unwrap(), rust(tokens));
        seen += 1;
    }
    assert!(seen >= 6);
}

/// Random trees have every kind and every field. Reading one and storing it again gives its bytes.
#[test]
fn random_trees_are_stored_as_they_were() {
    for number in 0..4_000 {
        let (_, tree, _) = case(8, number, false, false);
        let Ok(list) = read_tree(&tree, Alphabet::Ascii) else {
            continue;
        };
        let file = build::tree(&list).main_file().tokens.clone();
        assert_eq!(stored(&file).unwrap(), tree, "tree {number}");
        assert_eq!(port(&tree).unwrap(), rust(file.to_vec()), "tree {number}");
    }
}

#[test]
fn a_text_that_is_too_long_has_no_stored_form() {
    let tokens = tokens(&format!("nop // {}", "x".repeat(65_600)));
    assert_eq!(stored(&tokens), Err(TooLong));
}

/// The parser gives a plain item of a string no trivia, which a stored one cannot have: nothing of
/// a string is lost.
#[test]
fn strings_with_paths_in_them() {
    let file = tokens(".text \" a {b} c \" // d\n.text /* e */ \"{f}\"\n.file \"g\"\n");
    assert_eq!(port(&stored(&file).unwrap()).unwrap(), rust(file));
}
