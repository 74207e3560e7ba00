//! The samples of document 01, and what a call leaves in its buffers.
use felgutrosa::{Reason, Refusal, check_tree, chunks, format, has_ink, join_chunks, lost};

/// The options byte 0: label margin 20, code margin 30, labels to the right.
const DEFAULTS: &[u8] = &[0];

/// What a buffer is filled with beforehand, so that a byte that was touched shows.
const FILL: u8 = 0xee;

const CODE: u8 = 0;
const LABEL: u8 = 1;
const COMMENT: u8 = 2;

/// A tree with the one token `nop`.
const NOP: &[u8] = &[24, 0, 1, 0, 13, 2, 25, 2, 1, 0, 33];

/// A chunk in its stored form.
fn chunk(map: u8, indent: u16, text: &str) -> Vec<u8> {
    let mut stored = vec![map | if indent > 0 { 4 } else { 0 }];
    if indent > 0 {
        stored.extend(indent.to_le_bytes());
    }
    stored.extend((text.len() as u16).to_le_bytes());
    stored.extend(text.as_bytes());
    stored
}

/// Chunks at indent 0, stored end to end.
fn list(chunks: &[(u8, &str)]) -> Vec<u8> {
    chunks
        .iter()
        .flat_map(|(map, text)| chunk(*map, 0, text))
        .collect()
}

fn refused<T>(reason: Reason, place: usize) -> Result<T, Refusal> {
    Err(Refusal { reason, place })
}

/// Sets a list in a buffer with room to spare: the text, and the bytes behind it untouched.
fn joined(chunks: &[u8], options: &[u8]) -> String {
    let mut buffer = [FILL; 256];
    let length = join_chunks(chunks, options, &mut buffer).unwrap();
    assert!(buffer[length..].iter().all(|byte| *byte == FILL));
    String::from_utf8(buffer[..length].to_vec()).unwrap()
}

/// Formats a tree likewise: the work room is all zeros afterwards.
fn formatted(tree: &[u8], options: &[u8]) -> Result<String, Refusal> {
    let (mut work, mut text) = ([FILL; 4096], [FILL; 4096]);
    let answer = format(tree, options, &mut work, &mut text);
    assert!(work.iter().all(|byte| *byte == 0));
    let length = answer.unwrap_or(0);
    assert!(text[length..].iter().all(|byte| *byte == FILL));
    answer.map(|length| String::from_utf8(text[..length].to_vec()).unwrap())
}

/// A tree of so many levels: blocks in blocks, a list of tokens innermost.
fn nested(levels: usize) -> Vec<u8> {
    let brace = |byte: u8| [25, 2, 1, 0, byte];
    let mut tree = vec![24, 0, 0, 0];
    for _ in 0..levels {
        let inner = [&[2, 2, 27, 14][..], &brace(b'{'), &tree, &brace(b'}')].concat();
        tree = [&[24, 0, 1, 0][..], &inner].concat();
    }
    tree
}

#[test]
fn chunk_lists() {
    let s17 = " ".repeat(17);
    let s20 = " ".repeat(20);
    let samples: [(&[(u8, &str)], String, usize); 10] = [
        (&[], "".into(), 0),
        (&[(CODE, "\n")], "".into(), 0),
        (&[(CODE, "\n"), (CODE, "\n")], "".into(), 0),
        (&[(LABEL, "a:"), (CODE, "nop")], format!("{s17}a: nop"), 23),
        (&[(LABEL, "a:"), (CODE, "\n")], format!("{s17}a:"), 19),
        (
            &[(LABEL, "a:"), (CODE, "\n"), (CODE, "nop")],
            format!("{s17}a: nop"),
            23,
        ),
        (
            &[
                (CODE, "nop"),
                (CODE, "\n"),
                (CODE, "\n"),
                (CODE, "\n"),
                (CODE, "rts"),
            ],
            format!("{s20}nop\n\n{s20}rts"),
            48,
        ),
        (&[(COMMENT, "// c")], format!("{s20}// c"), 24),
        (
            &[(COMMENT, "// c"), (CODE, "\n"), (CODE, "\n"), (CODE, "nop")],
            format!("{s20}// c\n{s20}nop"),
            48,
        ),
        (
            &[(COMMENT, "/* c */"), (CODE, "nop")],
            format!("{s20}/* c */ nop"),
            31,
        ),
    ];
    for (chunks, text, length) in samples {
        assert_eq!(text.len(), length);
        assert_eq!(joined(&list(chunks), DEFAULTS), text);
    }
}

#[test]
fn a_comment_of_two_lines_at_an_indent() {
    let text = joined(&chunk(COMMENT, 4, "/* a\nb */"), DEFAULTS);
    assert_eq!(
        text,
        format!("{}/* a\n{}b */", " ".repeat(24), " ".repeat(20))
    );
    assert_eq!(text.len(), 53);
}

#[test]
fn no_code_margin() {
    let chunks = list(&[(CODE, "nop"), (CODE, "\n"), (CODE, "\n"), (CODE, "rts")]);
    let text = joined(&chunks, &[0x40, 0]);
    assert_eq!(text, format!("{0}nop\n{0}rts", " ".repeat(20)));
    assert_eq!(text.len(), 47);
}

#[test]
fn a_tree() {
    assert_eq!(
        formatted(NOP, DEFAULTS),
        Ok(format!("{}nop", " ".repeat(20)))
    );
    assert_eq!(formatted(&[24, 0, 0, 0], DEFAULTS), Ok("".into()));
    let mut room = [FILL; 16];
    assert_eq!(chunks(NOP, DEFAULTS, &mut room), Ok(6));
    assert_eq!(
        room,
        [
            0, 3, 0, b'n', b'o', b'p', FILL, FILL, FILL, FILL, FILL, FILL, FILL, FILL, FILL, FILL
        ]
    );
}

#[test]
fn the_limits_of_indent_and_depth() {
    assert!(formatted(NOP, &[8, 64]).is_ok());
    assert_eq!(formatted(NOP, &[8, 65]), refused(Reason::OptionsValue, 1));
    // A level of blocks takes three of depth: a token, its block and the list.
    assert_eq!(check_tree(&nested(21)), Ok(()));
    let deeper = nested(22);
    assert_eq!(check_tree(&deeper).unwrap_err().reason, Reason::TreeDepth);
    assert!(formatted(&nested(21), DEFAULTS).is_ok());
    assert_eq!(
        formatted(&deeper, DEFAULTS),
        check_tree(&deeper).map(|_| String::new())
    );
}

#[test]
fn a_buffer_that_is_one_byte_short() {
    let chunks = list(&[(LABEL, "a:"), (CODE, "nop")]);
    let mut buffer = [FILL; 22];
    assert_eq!(
        join_chunks(&chunks, DEFAULTS, &mut buffer),
        refused(Reason::TextRoom, 23)
    );
    assert_eq!(buffer, [FILL; 22]);
    let (mut work, mut text) = ([FILL; 64], [FILL; 22]);
    assert_eq!(
        format(NOP, DEFAULTS, &mut work, &mut text),
        refused(Reason::TextRoom, 23)
    );
    assert_eq!((work, text), ([0; 64], [FILL; 22]));
}

#[test]
fn every_refusal_with_its_place() {
    let mut text = [FILL; 64];
    let mut join = |chunks: &[u8], options: &[u8]| join_chunks(chunks, options, &mut text);
    assert_eq!(join(&[], &[]), refused(Reason::OptionsLength, 0));
    assert_eq!(join(&[], &[3, 1, 2]), refused(Reason::OptionsValue, 2));
    assert_eq!(
        join(&[0, 1, 0, b'a', 3, 1, 0, b'b'], DEFAULTS),
        refused(Reason::ChunkLayout, 4)
    );
    assert_eq!(
        join(&[0, 2, 0, b'a', 200], DEFAULTS),
        refused(Reason::NotAscii, 4)
    );
    assert_eq!(
        join(&vec![0; 1_048_577], DEFAULTS),
        refused(Reason::ChunkLayout, 0)
    );
    assert_eq!(check_tree(&[]), refused(Reason::TreeLength, 0));
    assert_eq!(check_tree(&[24; 65_536]), refused(Reason::TreeLength, 0));
    assert_eq!(
        check_tree(&[24, 0, 1, 0, 99]),
        refused(Reason::TreeLayout, 4)
    );
    assert_eq!(check_tree(&[24, 0, 1, 0]), refused(Reason::TreeLayout, 4));
    let (mut work, mut text) = ([FILL; 5], [FILL; 64]);
    assert_eq!(
        format(NOP, DEFAULTS, &mut work, &mut text),
        refused(Reason::WorkRoom, 6)
    );
    assert_eq!((work, text), ([0; 5], [FILL; 64]));
}

#[test]
fn a_refusal_can_be_told() {
    let refusal = check_tree(&[24, 0, 1, 0, 99]).unwrap_err();
    assert_eq!((refusal.reason.number(), refusal.place), (5, 4));
    assert_eq!(
        refusal.to_string(),
        "the tree breaks its layout (number 5, place 4)"
    );
}

/// A label with a comment on its colon, which stands at offset 11: place (b).
#[test]
fn a_lost_comment_is_told() {
    let mut tree = vec![24, 0, 1, 0, 14, 6, 25, 2, 1, 0, b'a', 25, 3, 1, 0, 3, 4, 0];
    tree.extend(b"// c");
    tree.extend([1, 0, b':']);
    for from in 0..12 {
        let loss = lost(&tree, from).unwrap().unwrap();
        assert_eq!((loss.offset, loss.letters().collect::<String>(), loss.loses_ink()), (11, "b".into(), true));
    }
    assert_eq!(lost(&tree, 12), Ok(None));
    assert_eq!(lost(NOP, 0), Ok(None));
    assert_eq!(lost(&[], 0), refused(Reason::TreeLength, 0));
    assert_eq!(lost(&tree[..12], 0), refused(Reason::TreeLayout, 11));
}

/// Every byte alone, before blanks and behind blanks.
#[test]
fn a_line_with_ink_is_told() {
    assert!(!has_ink(&[]));
    for byte in 0..=255 {
        let ink = !matches!(byte, 9..=13 | 32);
        assert_eq!(has_ink(&[byte]), ink);
        assert_eq!(has_ink(&[byte, 32, 9]), ink);
        assert_eq!(has_ink(&[32, 9, 10, 11, 12, 13, byte]), ink);
    }
}
