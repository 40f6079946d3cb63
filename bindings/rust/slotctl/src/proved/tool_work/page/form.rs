// Erased by bindings/rust/erase from crates/tool_work/src/page/form.rt, sha256 a9c48161bc0f745ee92e4ad34125523f2113a984e03b8a9ae35bb04e9670f996.
//! How what a desk holds is written.

/// How what a desk holds is written: for the script, or for readers without one.
#[derive(Clone, Copy, Debug, PartialEq, Eq)]
pub enum Form {
    /// As a list of texts in JSON.
    Data,
    /// As an item of a list in HTML.
    Item,
}

impl Form {
    /// What it begins with.
    pub(crate) fn begin(self) -> &'static [u8] {
        match self {
            Form::Data => b"[\"",
            Form::Item => b"<li>",
        }
    }

    /// What stands after that of which it is.
    pub(crate) fn colon(self) -> &'static [u8] {
        match self {
            Form::Data => b"\",\"",
            Form::Item => b": ",
        }
    }

    /// What stands between two parts.
    pub(crate) fn gap(self) -> &'static [u8] {
        match self {
            Form::Data => b"\",\"",
            Form::Item => b" ",
        }
    }

    /// What it ends with.
    pub(crate) fn end(self) -> &'static [u8] {
        match self {
            Form::Data => b"\"],\n",
            Form::Item => b"</li>\n",
        }
    }
}
