//! A place in a text, shown: file, line and column, the line itself and a caret below it.

use crate::lex::Span;

/// The line and column of a byte of the text, both from 1; columns are counted in characters.
pub fn line_and_column(text: &str, at: usize) -> (usize, usize) {
    let before = text.get(..at).unwrap_or(text);
    let line = before.matches('\n').count() + 1;
    let start = before.rfind('\n').map_or(0, |i| i + 1);
    (line, before[start..].trim_start_matches('\u{FEFF}').chars().count() + 1)
}

/// How much of a long line is shown on each side of the caret.
const ASIDE: usize = 60;

/// `FILE:LINE:COLUMN: message`, then the line with a caret.
pub fn pointed(file: &str, text: &str, span: Span, message: &str) -> String {
    let (line, column) = line_and_column(text, span.start);
    let start = text[..span.start.min(text.len())].rfind('\n').map_or(0, |i| i + 1);
    let whole = text[start..].split('\n').next().unwrap_or("").trim_end().trim_start_matches('\u{FEFF}');
    let length = text.get(span.start..span.end).map_or(1, |part| part.split('\n').next().unwrap_or("").chars().count());
    let first = (column - 1).saturating_sub(ASIDE);
    let harmless = |c: char| if c.is_control() && c != '\t' { '\u{FFFD}' } else { c };
    let shown: String = whole.chars().skip(first).take(2 * ASIDE).map(harmless).collect();
    let (cut, more) =
        (if first > 0 { ".." } else { "" }, if whole.chars().count() > first + 2 * ASIDE { ".." } else { "" });
    let tab_or_blank = |c: char| if c == '\t' { '\t' } else { ' ' };
    let gap: String = cut.chars().chain(shown.chars()).take(column - 1 - first + cut.len()).map(tab_or_blank).collect();
    let carets = "^".repeat(length.clamp(1, 2 * ASIDE - (column - 1 - first).min(2 * ASIDE - 1)));
    format!("{file}:{line}:{column}: {message}\n{line:>5} | {cut}{shown}{more}\n      | {gap}{carets}")
}
