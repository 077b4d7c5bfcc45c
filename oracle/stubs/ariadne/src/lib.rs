//! Stands for the report printer: it keeps the span and the message of the last report instead of printing it.
//! kaori's `Error` has no other public way to its contents.

use std::{cell::RefCell, io, ops::Range};

thread_local! {
    static LAST: RefCell<Option<(Range<usize>, String)>> = const { RefCell::new(None) };
}

/// Span and message of the last report of this thread.
pub fn last_report() -> Option<(Range<usize>, String)> {
    LAST.take()
}

pub enum ReportKind {
    Error,
}

pub enum Color {
    BrightRed,
}

pub struct Label;

impl Label {
    pub fn new(_: (&str, Range<usize>)) -> Self {
        Label
    }
    pub fn with_message(self, _: &str) -> Self {
        self
    }
    pub fn with_color(self, _: Color) -> Self {
        self
    }
}

pub struct Source;

impl Source {
    pub fn from(_: &str) -> Self {
        Source
    }
}

pub struct Report {
    span: Range<usize>,
    message: String,
}

impl Report {
    pub fn build(_: ReportKind, (_, span): (&str, Range<usize>)) -> Self {
        Report { span, message: String::new() }
    }
    pub fn with_message(self, message: &str) -> Self {
        Report { message: message.to_string(), ..self }
    }
    pub fn with_label(self, _: Label) -> Self {
        self
    }
    pub fn finish(self) -> Self {
        self
    }
    pub fn print(self, _: (&str, Source)) -> io::Result<()> {
        LAST.set(Some((self.span, self.message)));
        Ok(())
    }
}
