// Erased by bindings/rust/erase from crates/service_watch/src/request.rt, sha256 ba0c19f6bbeab1bfbf966b06d09606cd2a41d680757bbd9f6c7ace851d59ce5f.
//! What a request asks for.

use crate::kit::httparse::spans::{parse_request, EMPTY_HEADER_SPAN};
use crate::kit::httparse::Status;

/// The most bytes of a request.
pub const MOST_REQUEST: usize = 8_192;

/// The most fields of a request.
const MOST_FIELDS: usize = 64;

/// What a request asks for.
#[derive(Clone, Copy, Debug, PartialEq, Eq)]
pub enum Asked {
    /// The page of metrics.
    Page,
    /// Whether the loop turns.
    Alive,
    /// Whether clients are answered.
    Ready,
    /// A page that there is not.
    Nowhere,
    /// Something by another method than GET.
    OtherMethod,
    /// It is no request of HTTP.
    Unreadable,
}

// The path of a target, without what asks for more.
fn path_of(target: &[u8]) -> &[u8] {
    match target.iter().position(|byte| *byte == b'?') {
        Some(end) => &target[..end.min(target.len())],
        None => target,
    }
}

// What a request of this method and target asks for.
fn asked_of(method: &[u8], target: &[u8]) -> Asked {
    if method != b"GET".as_slice() {
        return Asked::OtherMethod;
    }
    match path_of(target) {
        b"/metrics" => Asked::Page,
        b"/healthz" => Asked::Alive,
        b"/readyz" => Asked::Ready,
        _ => Asked::Nowhere,
    }
}

/// What the request asks for whose head begins these bytes; none where more of it is to come.
pub fn asked_by(bytes: &[u8]) -> Option<Asked> {
    let mut fields = [EMPTY_HEADER_SPAN; MOST_FIELDS];
    match parse_request(bytes, &mut fields) {
        Ok(Status::Complete(head)) => Some(asked_of(head.method.of(bytes), head.path.of(bytes))),
        Ok(Status::Partial) => None,
        Err(_) => Some(Asked::Unreadable),
    }
}
