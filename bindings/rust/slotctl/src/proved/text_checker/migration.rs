// Erased by bindings/rust/erase from crates/text_checker/src/migration.rt, sha256 bc2015b64a132a5fe8c1e3a611522089fcbcb41944c1bcf1a5b59eb47b7c8ea5.
//! From the lines of a record to those of its version 2.

use crate::kit::alloc::{AllocError, Global};
use crate::proved::model_asked::config::Config;
use crate::proved::model_asked::event::Event;
use crate::proved::text_checker::gather::Gather;
use crate::proved::text_checker::judges::firsts::Firsts;
use crate::proved::text_records::compact::{put_header, put_line};
use crate::proved::text_records::line::{Line, Row};
use crate::proved::text_records::reported::Reported;
use crate::proved::text_records::text::Text;

/// The lines of a record in version 2, with the first moments by which names may have been given.
pub struct Migration {
    firsts: Firsts,
    text: Text,
}

/// The identity that proposes in a line, and the number.
fn proposal(line: &Line) -> Option<(u64, u64)> {
    let Event::Step(id) = line.event else {
        return None;
    };
    match &line.reported {
        Reported::Proposed(number) => Some((id, *number)),
        _ => None,
    }
}

/// The view that is kept of the identity that steps in an event.
fn first_view(firsts: &Firsts, event: Event) -> &[(u64, u64)] {
    let Event::Step(id) = event else {
        return &[];
    };
    match firsts.view_of(id) {
        Some(view) => view.as_slice(),
        None => &[],
    }
}

/// The view by which a line's name was given: the one that is written, or the first that there was.
fn shown<'a>(firsts: &'a Firsts, line: &'a Line) -> &'a [(u64, u64)] {
    match &line.reported {
        Reported::Named(_, Some(view)) => view.as_slice(),
        Reported::Named(_, None) => first_view(firsts, line.event),
        _ => &[],
    }
}

/// Updates the first moments by a line.
fn follow(firsts: &mut Firsts, line: &Line) -> Result<(), AllocError> {
    match proposal(line) {
        Some((id, number)) => firsts.propose(id, number),
        None => Ok(()),
    }
}

impl Migration {
    /// Makes the text of the header alone.
    ///
    /// # Errors
    ///
    /// `AllocError`: the allocation failed.
    pub fn new(alloc: Global, config: Config) -> Result<Migration, AllocError> {
        let mut text = Text::new(alloc);
        put_header(config, &mut text)?;
        Ok(Migration {
            firsts: Firsts::new(alloc),
            text,
        })
    }

    /// Returns the text of all lines.
    pub fn into_text(self) -> Text {
        let Migration { firsts: _, text } = self;
        text
    }
}

/// Appends a line. If its bytes are what would be written, they are copied.
fn put_row(firsts: &Firsts, row: &Row, bytes: &[u8], text: &mut Text) -> Result<(), AllocError> {
    if row.is_canonical {
        return text.put_row(bytes);
    }
    put_line(&row.line, shown(firsts, &row.line), text)
}

impl Gather for Migration {
    fn take(&mut self, row: &Row, bytes: &[u8]) -> Result<(), AllocError> {
        put_row(&self.firsts, row, bytes, &mut self.text)?;
        follow(&mut self.firsts, &row.line)?;
        Ok(())
    }
}
