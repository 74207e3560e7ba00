"""Wrong readings of document 01 that no rule of mutations.py makes: the reading, the model's text, the text by it."""

WRONG_READINGS = [
    (
        "only newline chunks of code are dropped before a closing brace",
        'while self.chunks and self.chunks[-1].text == b"\\n":',
        'while self.chunks and self.chunks[-1].text == b"\\n" and self.chunks[-1].type == CODE:',
    ),
    (
        "every blank chunk is dropped before a closing brace",
        'while self.chunks and self.chunks[-1].text == b"\\n":',
        "while self.chunks and not has_ink(self.chunks[-1].text):",
    ),
    (
        "one newline chunk is dropped before a closing brace",
        'while self.chunks and self.chunks[-1].text == b"\\n":',
        'if self.chunks and self.chunks[-1].text == b"\\n":',
    ),
    (
        "only newlines of code are dropped first in a block",
        'if text == b"\\n":\n                self.events',
        'if text == b"\\n" and type_ == CODE:\n                self.events',
    ),
    (
        "every blank chunk is dropped first in a block",
        'if text == b"\\n":\n                self.events',
        "if not has_ink(text):\n                self.events",
    ),
    (
        "a chunk that is dropped first in a block needs room",
        "        if self.leading:\n            if text",
        "        self.held += self.leading\n        if self.leading:\n            if text",
    ),
    (
        "a pending space is lost with a chunk of no text",
        'if text == b"":\n            return\n        if self.pending:',
        'if text == b"":\n            self.pending = False\n            return\n        if self.pending:',
    ),
    (
        "a pending space is not put before a newline",
        "        if self.pending:\n            text =",
        '        if self.pending and text != b"\\n":\n            text =',
    ),
    (
        "a pending space is not put before a comment",
        "        if self.pending:\n            text =",
        "        if self.pending and type_ != COMMENT:\n            text =",
    ),
    (
        "a pending space is a chunk of its own",
        '            text = b" " + text\n            self.pending = False',
        '            self.pending = False\n            self.push(b" ", origin)',
    ),
    (
        "a pending space stays behind the chunk before which it was put",
        '            text = b" " + text\n            self.pending = False',
        '            text = b" " + text',
    ),
    (
        "a comment that ends in a newline loses it",
        "self.push(t.text, rec, COMMENT, cpp=t.code == 3)",
        'self.push(t.text.rstrip(b"\\n"), rec, COMMENT)',
    ),
    (
        "a comment stands behind its leaf",
        "            self.trivia(leaf)\n            self.bare(leaf)",
        "            self.bare(leaf)\n            self.trivia(leaf)",
    ),
    (
        "whitespace is printed",
        'elif t.code == NEWLINE:\n                self.push(b"\\n", rec)',
        'else:\n                self.push(b"\\n" if t.code == NEWLINE else t.text, rec)',
    ),
    (
        "the closing brace is indented with its block",
        "        self.indent -= self.o.indent\n        self.drop_last_newlines()\n        self.newline(block)\n",
        "        self.drop_last_newlines()\n        self.newline(block)\n        self.indent -= self.o.indent\n",
    ),
    (
        "the trivia of a closing brace are printed with the brace too",
        '        self.newline(block)\n        self.bare(block["rparen"])',
        '        self.newline(block)\n        self.leaf(block["rparen"])',
    ),
    (
        "the trivia of a colon are printed",
        'self.push(leaf_text(t["id"], self.o) + b":", t["id"], LABEL)\n',
        'self.push(leaf_text(t["id"], self.o) + b":", t["id"], LABEL)\n            self.trivia(t["colon"])\n',
    ),
    (
        "a label with no text is not printed",
        'self.push(leaf_text(t["id"], self.o) + b":", t["id"], LABEL)',
        'self.push(leaf_text(t["id"], self.o) and leaf_text(t["id"], self.o) + b":", t["id"], LABEL)',
    ),
    (
        "only a newline of code stands behind a comment at a line's end",
        'if last or chunks[n + 1].text == b"\\n":',
        'if last or chunks[n + 1].text == b"\\n" and chunks[n + 1].type == CODE:',
    ),
    (
        "whatever begins with a newline stands behind a comment at a line's end",
        'if last or chunks[n + 1].text == b"\\n":',
        'if last or chunks[n + 1].text.startswith(b"\\n"):',
    ),
    (
        "only the last piece of a comment is set at the comments' margin",
        'if last or chunks[n + 1].text == b"\\n":',
        'if (last or chunks[n + 1].text == b"\\n") and not piece.endswith(b"\\n"):',
    ),
    (
        "only the last piece of the last chunk ends the line",
        'if (piece.endswith(b"\\n") and not ignored) or last:',
        'if (piece.endswith(b"\\n") and not ignored) or last and not piece.endswith(b"\\n"):',
    ),
    (
        "every line of a chunk has its indent",
        'line, indent = b"", None\n    return kept',
        'line, indent = b"", chunk.indent\n    return kept',
    ),
    (
        "a line has the indent of its last chunk",
        "        if indent is None:\n            indent = chunk.indent",
        "        indent = chunk.indent",
    ),
    (
        "a newline alone is ignored behind a label only",
        'if piece == b"\\n" and 0 < len(line) <= L:',
        'if piece == b"\\n" and 0 < len(line) <= L and line[:1] != b" ":',
    ),
    (
        "every newline of a label's line is ignored",
        'if piece == b"\\n" and 0 < len(line) <= L:',
        'if piece == b"\\n" and 0 < len(line):',
    ),
    (
        "a standalone comment may have no text before it but spaces",
        "standalone_last = len(line) > L + C and not has_ink(line[: L + C])",
        'standalone_last = len(line) > L + C and line[: L + C] == b" " * (L + C)',
    ),
    (
        "the indent counts for the margins",
        "standalone_last = len(line) > L + C and",
        "standalone_last = len(line) > L + C + (indent or 0) and",
    ),
    (
        "blanks are cut before the indent is put in front",
        'kept.append(trim_end(b" " * (indent or 0) + line))',
        'kept.append(b" " * (indent or 0) + trim_end(line))',
    ),
    (
        "the blank lines at the end are cut",
        'return b"\\n".join(kept_lines(chunks, options))',
        'return b"\\n".join(kept_lines(chunks, options)).rstrip(b"\\n")',
    ),
    (
        "every line ends in a newline",
        'return b"\\n".join(kept_lines(chunks, options))',
        'return b"".join(line + b"\\n" for line in kept_lines(chunks, options))',
    ),
]
