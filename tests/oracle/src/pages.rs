//! The printed page (S17): the pages of an expression and its pairs, and the pairs read back, each by itself.

use crate::{expression, Refusal};

/// The bytes of a line without its line feed, of the expression on a head; the pairs of a line; the pair lines of a page.
const WIDTH: usize = 72;
const SHOWN: usize = 60;
const PAIRS: usize = 6;
const LINES: usize = 59;

/// The pages of pair words.
pub fn print(text: &[u8], words: &[u32]) -> Vec<u8> {
    let mut pages = Vec::new();
    let mut parts: Vec<&[u32]> = words.chunks(PAIRS * LINES).collect();
    if parts.is_empty() {
        parts.push(&[]);
    }
    for (at, part) in parts.into_iter().enumerate() {
        let shown = &text[..text.len().min(SHOWN)];
        pages.extend_from_slice(shown);
        pages.extend(std::iter::repeat_n(b' ', SHOWN - shown.len()));
        pages.extend(format!("{:>12}\n", at + 1).bytes());
        for line in part.chunks(PAIRS) {
            let cells: String = line.iter().map(|word| format!("{:>5} {:>5} ", word / 1024, word % 1024)).collect();
            pages.extend(format!("{cells:<72}\n").bytes());
        }
    }
    pages
}

/// The number in a field: blanks, then figures with no zero in front.
fn number(field: &[u8]) -> Option<u32> {
    let figures = &field[field.iter().position(|&byte| byte != b' ')?..];
    let zero = figures[0] == b'0' && figures.len() > 1;
    if zero || !figures.iter().all(u8::is_ascii_digit) {
        return None;
    }
    figures.iter().try_fold(0u32, |sum, figure| sum.checked_mul(10)?.checked_add((figure - b'0').into()))
}

/// The pair words of a line: cells, and then blanks.
fn pairs(line: &[u8]) -> Option<Vec<u32>> {
    let filled = line.iter().rposition(|&byte| byte != b' ').map_or(0, |last| last / 12 + 1);
    let (cells, rest) = line.split_at(12 * filled);
    if rest.iter().any(|&byte| byte != b' ') {
        return None;
    }
    cells
        .chunks(12)
        .map(|cell| {
            let (from, to) = (number(&cell[..5])?, number(&cell[6..11])?);
            (cell[5] == b' ' && cell[11] == b' ' && from < 1024 && to < 1024).then_some(from * 1024 + to)
        })
        .collect()
}

/// Is this the head of the page, from 1 on?
fn is_head(text: &[u8], page: usize, line: &[u8]) -> bool {
    let (front, back) = line.split_at(SHOWN);
    let shown = text.len().min(SHOWN);
    front[..shown] == text[..shown]
        && front[shown..].iter().all(|&byte| byte == b' ')
        && number(back) == u32::try_from(page).ok()
}

/// What bytes hold as pages of the text, if they are such.
fn held(text: &[u8], bytes: &[u8]) -> Option<Vec<u32>> {
    let lines: Vec<&[u8]> = bytes.chunks(WIDTH + 1).collect();
    if lines.is_empty() || lines.iter().any(|line| line.len() != WIDTH + 1 || line[WIDTH] != b'\n') {
        return None;
    }
    let pages: Vec<&[&[u8]]> = lines.chunks(LINES + 1).collect();
    let mut words = Vec::new();
    for (at, page) in pages.iter().enumerate() {
        if !is_head(text, at + 1, &page[0][..WIDTH]) || (at > 0 && page.len() == 1) {
            return None;
        }
        for (place, line) in page[1..].iter().enumerate() {
            let found = pairs(&line[..WIDTH])?;
            let last = at + 1 == pages.len() && place + 2 == page.len();
            if found.is_empty() || (found.len() < PAIRS && !last) {
                return None;
            }
            words.extend(found);
        }
    }
    words.windows(2).all(|two| two[0] < two[1]).then_some(words)
}

/// The pairs that pages show. Refusals in their order: those of the expression, then 14, then 13.
pub fn read(text: &[u8], bytes: &[u8], list: usize) -> Result<Vec<u32>, Refusal> {
    expression::read(text)?;
    let words = held(text, bytes).ok_or(Refusal::Frame)?;
    if words.len() > list {
        return Err(Refusal::List);
    }
    Ok(words)
}
