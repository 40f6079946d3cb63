// Erased by bindings/rust/erase from crates/tool_work/src/page/sheet.rt, sha256 66888f4f3a7f48da3c5a7ab0e2e1cd9467533de70f48049a056c386fdbbbc23b.
//! From the lines of a record to a page.

use crate::kit::alloc::{AllocError, Global};
use crate::kit::Vec;
use crate::proved::model_asked::config::Config;
use crate::proved::model_steps::place::Place;
use crate::proved::text_checker::gather::Gather;
use crate::proved::text_records::compact::put_header;
use crate::proved::text_records::line::Row;
use crate::proved::text_records::text::Text;
use crate::proved::text_worlds::desk::desk::Desk;
use crate::proved::tool_work::page::access::keep_reached;
use crate::proved::tool_work::page::done::{access_in, replay, Done};
use crate::proved::tool_work::page::form::Form;
use crate::proved::tool_work::page::head::head;
use crate::proved::tool_work::page::middle::{between, middle};
use crate::proved::tool_work::page::row::put_where_shown;
use crate::proved::tool_work::page::state::{put_state, put_state_where_asked};
use crate::proved::tool_work::page::still::{keep_beginner, put_item_where_shown};
use crate::proved::tool_work::page::stretch::Stretch;
use crate::proved::tool_work::page::tail::tail;
use std::mem;

/// A page so far: up to its rows, the state before them, and the items that come after. Beside it a desk on which the lines so far
/// were replayed, with what it did at the last of them, who has begun, and which places were reached.
pub(crate) struct Sheet {
    alloc: Global,
    desk: Desk<Global>,
    begun: Vec<u64>,
    reached: Vec<Place>,
    done: Option<Done>,
    stretch: Stretch,
    seen: u64,
    before: Text,
    text: Text,
    listed: Text,
}

/// Appends what stands before the first row.
fn put_opening(config: Config, stretch: Stretch, out: &mut Text) -> Result<(), AllocError> {
    out.put(head())?;
    put_header(config, out)?;
    out.put_word(b",\"from\":", stretch.from)?;
    out.put(b",\"rows\":[\n")?;
    Ok(())
}

/// Appends what ends the data, with the state before its rows.
fn put_closing_data(before: &Text, events: u64, out: &mut Text) -> Result<(), AllocError> {
    out.put(b"null],\"before\":[\n")?;
    out.put(before.as_slice())?;
    out.put_word(b"null],\"events\":", events)?;
    out.put(b"}\n")?;
    Ok(())
}

/// Appends what stands after the last row: of which texts, and of which desk.
fn put_ending(
    alloc: Global,
    before: &Text,
    desk: &Desk<Global>,
    begun: &[u64],
    reached: &[Place],
    events: u64,
    listed: &Text,
    out: &mut Text,
) -> Result<(), AllocError> {
    put_closing_data(before, events, out)?;
    out.put(middle())?;
    put_state(alloc, Form::Item, desk, begun, reached, out)?;
    out.put(between())?;
    out.put(listed.as_slice())?;
    out.put(tail())?;
    Ok(())
}

/// A desk of this config on which nothing was done. An error where its room was refused.
fn fresh(alloc: Global, config: Config) -> Result<Desk<Global>, AllocError> {
    match Desk::new(alloc, config) {
        Ok(desk) => Ok(desk),
        Err(_) => Err(AllocError),
    }
}

impl Sheet {
    /// No row yet, of a record of this config. An error where a growth was refused.
    pub(crate) fn new(
        alloc: Global,
        config: Config,
        stretch: Stretch,
    ) -> Result<Sheet, AllocError> {
        let mut text = Text::new(alloc);
        put_opening(config, stretch, &mut text)?;
        Ok(Sheet {
            alloc,
            // the last that may be refused, since a desk is taken apart at each way out behind it
            desk: fresh(alloc, config)?,
            begun: Vec::new(alloc),
            reached: Vec::new(alloc),
            done: None,
            stretch,
            seen: 0,
            before: Text::new(alloc),
            text,
            listed: Text::new(alloc),
        })
    }

    /// Puts what stands after the last row of a page, which is of this stretch. An error where a growth was refused.
    fn finish(&mut self, stretch: Stretch) -> Result<(), AllocError> {
        // What gathers lines may change all that it keeps, so it is looked at again.
        if self.stretch.from != stretch.from || self.stretch.count != stretch.count {
            return Err(AllocError);
        }
        let is_past = self.stretch.is_past(self.seen);
        put_state_where_asked(
            self.alloc,
            is_past,
            &self.desk,
            &self.begun,
            &self.reached,
            &mut self.before,
        )?;
        put_ending(
            self.alloc,
            &self.before,
            &self.desk,
            &self.begun,
            &self.reached,
            self.seen,
            &self.listed,
            &mut self.text,
        )?;
        Ok(())
    }

    /// The whole page, which is of this stretch. An error where a growth was refused.
    pub(crate) fn into_page(mut self, alloc: Global, stretch: Stretch) -> Result<Text, AllocError> {
        self.finish(stretch)?;
        Ok(mem::replace(&mut self.text, Text::new(alloc)))
    }
}

impl Gather for Sheet {
    fn take(&mut self, row: &Row, _bytes: &[u8]) -> Result<(), AllocError> {
        let line = &row.line;
        let Some(seen) = self.seen.checked_add(1) else {
            return Err(AllocError);
        };
        let is_first = self.stretch.begins_after(self.seen);
        let is_shown = self.stretch.has(self.seen);
        put_state_where_asked(
            self.alloc,
            is_first,
            &self.desk,
            &self.begun,
            &self.reached,
            &mut self.before,
        )?;
        replay(&mut self.desk, line, &mut self.done)?;
        keep_beginner(line, &mut self.begun)?;
        keep_reached(access_in(&self.done), &mut self.reached)?;
        put_where_shown(line, is_shown, &self.done, &mut self.text)?;
        put_item_where_shown(
            &self.begun,
            seen,
            line,
            is_shown,
            &self.done,
            &mut self.listed,
        )?;
        self.seen = seen;
        Ok(())
    }
}
