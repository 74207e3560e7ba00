// ---- appended by the oracle's build script; everything above is the original file ----

/// Reaches the private chunk type, the walk and the column setter of this file.
pub mod oracle_access {
    use super::*;

    /// Type 0 is code, 1 label, 2 comment.
    #[derive(Clone, Debug, PartialEq, Eq)]
    pub struct PlainChunk {
        pub ty: u8,
        pub indent: usize,
        pub text: String,
    }

    /// The chunks held when `format` would call `join_chunks`.
    pub fn chunks(
        path: PathBuf,
        tree: Arc<ParseTree>,
        options: FormattingOptions,
    ) -> Vec<PlainChunk> {
        let mut formatter = CodeFormatter::new(tree.clone(), options);
        formatter.format_tokens(
            &tree.try_get_file(path).expect("File not found").tokens,
            false,
        );
        formatter
            .chunks
            .into_iter()
            .map(|chunk| PlainChunk {
                ty: match chunk.ty {
                    None => 0,
                    Some(ChunkType::Label) => 1,
                    Some(ChunkType::Comment) => 2,
                },
                indent: chunk.indent,
                text: chunk.str,
            })
            .collect()
    }

    /// Chunks as `join_chunks` takes them.
    pub struct Built(Vec<Chunk>);

    pub fn build(chunks: &[PlainChunk]) -> Built {
        let build_one = |chunk: &PlainChunk| Chunk {
            ty: match chunk.ty {
                0 => None,
                1 => Some(ChunkType::Label),
                _ => Some(ChunkType::Comment),
            },
            indent: chunk.indent,
            str: chunk.text.clone(),
        };
        Built(chunks.iter().map(build_one).collect())
    }

    /// The original `join_chunks` and nothing else: a measurement can name this function.
    #[inline(never)]
    pub fn join_built(chunks: Built, options: &FormattingOptions) -> String {
        join_chunks(chunks.0, options)
    }

    pub fn join(chunks: &[PlainChunk], options: &FormattingOptions) -> String {
        join_built(build(chunks), options)
    }
}
