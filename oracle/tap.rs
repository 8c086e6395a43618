//! A module of the Rust's `parsing`, from where its private parts are in reach: the lists between the stages, and the
//! chord as it is after `validate`.
use super::{Parser, ParserError, ParserErrors, ast::Ast, evaluator::Evaluator, token::Token};
use crate::chord::Chord;

impl Parser {
    /// The lexer's list, before `pre_process`.
    pub(crate) fn scanned<'a>(&mut self, text: &'a str) -> Vec<Token<'a>> {
        self.lexer.scan_tokens(text, &mut Vec::new())
    }

    /// The list after `pre_process`, which the parser reads.
    pub(crate) fn folded<'a>(&mut self, text: &'a str) -> Vec<Token<'a>> {
        Self::pre_process(&self.scanned(text))
    }

    /// The root and the expressions that the parser reads; its errors are then in `parse_errors`.
    pub(crate) fn expressions(&mut self, text: &str) -> Ast {
        self.init();
        let tokens = self.folded(text);
        let mut ast = Ast::default();
        self.read_tokens(&mut tokens.iter().peekable(), &mut ast);
        ast
    }

    /// The errors that the last parse found; those of validation are not among them.
    pub(crate) fn parse_errors(&self) -> &[ParserError] {
        &self.errors
    }
}

impl Evaluator<'_> {
    /// Stands in the place of `build_chord`: what there is after `validate`, in the same types.
    pub(crate) fn stop(self) -> Result<Chord, ParserErrors> {
        let mut chord = Chord::builder("", self.ast.root).build();
        chord.bass = self.dc.bass;
        chord.normalized_intervals = self.dc.intervals;
        chord.intervals = self.dc.display_intervals;
        if self.is_valid { Ok(chord) } else { Err(ParserErrors { errors: self.errors }) }
    }
}
