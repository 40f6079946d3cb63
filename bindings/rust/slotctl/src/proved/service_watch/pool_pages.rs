// Erased by bindings/rust/erase from crates/service_watch/src/pool_pages.rt, sha256 5adfffcbecb49aff2c6f673abee87e2a6b94d1e4a2c94ac36f979e5526446814.
//! The pages of several pools as one page.

use crate::kit::alloc::{AllocError, Global};
use crate::kit::String;
use crate::kit::Vec;

/// What ends a line.
const LF: u8 = 10;

/// What begins the lines that tell what a metric is.
const REMARK: &[u8] = b"#";

/// The most metrics of a page, and the most lines of one.
const MOST: u32 = 1_000;

/// The page of a pool, as far as it is not put on another.
pub struct PoolPage {
    name: String,
    page: Vec<u8>,
    /// How many bytes were put.
    at: usize,
}

// The first line of a text, with its LF.
fn first_line(text: &[u8]) -> &[u8] {
    match text.iter().position(|byte| *byte == LF) {
        Some(end) => &text[..end.saturating_add(1).min(text.len())],
        None => text,
    }
}

// The lines that a text begins with and that tell what a metric is.
fn head_of(text: &[u8]) -> &[u8] {
    let mut len = 0usize;
    for _ in 0..MOST {
        let line = first_line(&text[len.min(text.len())..]);
        if !line.starts_with(REMARK) {
            break;
        }
        len = len.saturating_add(line.len());
    }
    &text[..len.min(text.len())]
}

// Appends the line of a number, with a label that names its pool before all others.
fn put_labelled(name: &str, line: &[u8], out: &mut Vec<u8>) -> Result<(), AllocError> {
    let at = match line.iter().position(|byte| matches!(*byte, b'{' | b' ')) {
        Some(at) => at.min(line.len()),
        None => line.len(),
    };
    out.extend_from_slice(&line[..at])?;
    out.extend_from_slice(b"{pool=\"")?;
    out.extend_from_slice(name.as_bytes())?;
    match line.get(at) {
        Some(b'{') => {
            out.extend_from_slice(b"\",")?;
            out.extend_from_slice(&line[at.saturating_add(1).min(line.len())..])
        }
        _ => {
            out.extend_from_slice(b"\"}")?;
            out.extend_from_slice(&line[at..])
        }
    }
}

impl PoolPage {
    /// The page of the pool of this name.
    pub fn new(name: String, page: Vec<u8>) -> PoolPage {
        PoolPage { name, page, at: 0 }
    }

    // What was not put.
    fn rest(&self) -> &[u8] {
        &self.page[self.at.min(self.page.len())..]
    }

    // Puts the numbers of the metric that it tells next, if it is the one of these lines.
    fn put_metric(&mut self, head: &[u8], out: &mut Vec<u8>) -> Result<(), AllocError> {
        if !self.rest().starts_with(head) {
            return Ok(());
        }
        self.at = self.at.saturating_add(head.len());
        for _ in 0..MOST {
            let line = first_line(self.rest());
            if line.is_empty() || line.starts_with(REMARK) {
                break;
            }
            put_labelled(&self.name, line, out)?;
            self.at = self.at.saturating_add(line.len());
        }
        Ok(())
    }
}

// The lines that tell what the next metric is, of the first page that has one more.
fn next_head(alloc: Global, pages: &[PoolPage]) -> Result<Vec<u8>, AllocError> {
    let mut head = Vec::new(alloc);
    for page in pages {
        if !page.rest().is_empty() {
            head.extend_from_slice(head_of(page.rest()))?;
            break;
        }
    }
    Ok(head)
}

/// Appends the numbers of all pools, each metric once, and each number with a label that names its pool. Pages tell their metrics in one order, and some
/// may lack some.
///
/// # Errors
///
/// `AllocError`: an allocation failed. A part may stand there.
pub fn put_pages(
    alloc: Global,
    pages: &mut [PoolPage],
    out: &mut Vec<u8>,
) -> Result<(), AllocError> {
    for _ in 0..MOST {
        let head = next_head(alloc, pages)?;
        if head.is_empty() {
            break;
        }
        out.extend_from_slice(&head)?;
        for page in &mut *pages {
            page.put_metric(&head, out)?;
        }
    }
    Ok(())
}
