//! Stands in for errors.rs, which is not among the files that are read.
use crate::parser::code_map::{CodeMap, Span};
use codespan_reporting::diagnostic::Diagnostic;

pub type CoreResult<T> = Result<T, Diagnostics>;

#[derive(Debug, Default, Clone)]
pub struct Diagnostics(Vec<Diagnostic<Span>>);

impl Diagnostics {
    pub fn push(&mut self, d: Diagnostic<Span>) {
        self.0.push(d);
    }

    pub fn is_empty(&self) -> bool {
        self.0.is_empty()
    }

    pub fn messages(&self) -> Vec<String> {
        self.0.iter().map(|d| d.message.clone()).collect()
    }

    pub fn with_code_map(self, _: &CodeMap) -> Self {
        self
    }
}

impl From<Diagnostic<Span>> for Diagnostics {
    fn from(d: Diagnostic<Span>) -> Self {
        Diagnostics(vec![d])
    }
}

impl From<Vec<Diagnostic<Span>>> for Diagnostics {
    fn from(d: Vec<Diagnostic<Span>>) -> Self {
        Diagnostics(d)
    }
}

pub fn map_io_error(e: std::io::Error) -> Diagnostics {
    Diagnostic::error().with_message(e).into()
}
