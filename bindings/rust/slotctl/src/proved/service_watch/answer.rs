// Erased by bindings/rust/erase from crates/service_watch/src/answer.rt, sha256 34664a166fd39e455ac299ea9b34ff357a61a96a37980b6fee42880cb598134b.
//! What a request is answered.

use crate::kit::alloc::{AllocError, Global};
use crate::kit::itoa::Buffer;
use crate::kit::Vec;
use crate::proved::service_watch::numbers::Numbers;
use crate::proved::service_watch::page::put_page;
use crate::proved::service_watch::request::Asked;

/// What the text form of Prometheus is called.
const PAGE_TYPE: &str = "text/plain; version=0.0.4; charset=utf-8";

/// What other texts are called.
const TEXT_TYPE: &str = "text/plain; charset=utf-8";

// The status and its words.
fn status_of(asked: Asked, ready: bool) -> &'static str {
    match asked {
        Asked::Page | Asked::Alive => "200 OK",
        Asked::Ready => {
            if ready {
                "200 OK"
            } else {
                "503 Service Unavailable"
            }
        }
        Asked::Nowhere => "404 Not Found",
        Asked::OtherMethod => "405 Method Not Allowed",
        Asked::Unreadable => "400 Bad Request",
    }
}

// The text of an answer that is no page of metrics.
fn text_of(asked: Asked, ready: bool) -> &'static str {
    match asked {
        Asked::Page => "",
        Asked::Alive => "ok\n",
        Asked::Ready => {
            if ready {
                "ready\n"
            } else {
                "the log does not answer\n"
            }
        }
        Asked::Nowhere => "there are /metrics, /healthz and /readyz\n",
        Asked::OtherMethod => "GET is answered\n",
        Asked::Unreadable => "no request\n",
    }
}

// What the text of an answer is called.
fn form_of(asked: Asked) -> &'static str {
    match asked {
        Asked::Page => PAGE_TYPE,
        Asked::Alive | Asked::Ready | Asked::Nowhere | Asked::OtherMethod | Asked::Unreadable => {
            TEXT_TYPE
        }
    }
}

// The field that says which methods are answered, for who asked by another.
fn allow_of(asked: Asked) -> &'static str {
    match asked {
        Asked::OtherMethod => "\r\nAllow: GET",
        Asked::Page | Asked::Alive | Asked::Ready | Asked::Nowhere | Asked::Unreadable => "",
    }
}

// Appends a text.
fn put(text: &str, answer: &mut Vec<u8>) -> Result<(), AllocError> {
    answer.extend_from_slice(text.as_bytes())
}

// Appends the head of an answer with a body of so many bytes.
fn put_head(asked: Asked, ready: bool, len: usize, answer: &mut Vec<u8>) -> Result<(), AllocError> {
    put("HTTP/1.1 ", answer)?;
    put(status_of(asked, ready), answer)?;
    put("\r\nContent-Type: ", answer)?;
    put(form_of(asked), answer)?;
    put(allow_of(asked), answer)?;
    put("\r\nContent-Length: ", answer)?;
    put(Buffer::new().format(len), answer)?;
    put("\r\nConnection: close\r\n\r\n", answer)
}

// Appends the body of an answer: a page of metrics, or a text.
fn put_body(asked: Asked, numbers: &Numbers, body: &mut Vec<u8>) -> Result<(), AllocError> {
    match asked {
        Asked::Page => put_page(numbers, body),
        Asked::Alive | Asked::Ready | Asked::Nowhere | Asked::OtherMethod | Asked::Unreadable => {
            put(text_of(asked, numbers.ready), body)
        }
    }
}

/// Appends what is answered to a request: a head with its status, and a page or a text.
///
/// # Errors
///
/// `AllocError`: an allocation failed. A part of the answer may stand there.
pub fn put_answer(
    alloc: Global,
    asked: Asked,
    numbers: &Numbers,
    answer: &mut Vec<u8>,
) -> Result<(), AllocError> {
    let mut body = Vec::new(alloc);
    put_body(asked, numbers, &mut body)?;
    put_head(asked, numbers.ready, body.len(), answer)?;
    answer.extend_from_slice(&body)
}

// The body of an answer, where this is the page.
fn body_of<'a>(asked: Asked, ready: bool, page: &'a [u8]) -> &'a [u8] {
    match asked {
        Asked::Page => page,
        Asked::Alive | Asked::Ready | Asked::Nowhere | Asked::OtherMethod | Asked::Unreadable => {
            text_of(asked, ready).as_bytes()
        }
    }
}

/// Appends what is answered to a request where this is the page, and clients are answered or not.
///
/// # Errors
///
/// `AllocError`: an allocation failed. A part of the answer may stand there.
pub fn put_answer_of(
    asked: Asked,
    ready: bool,
    page: &[u8],
    answer: &mut Vec<u8>,
) -> Result<(), AllocError> {
    let body = body_of(asked, ready, page);
    put_head(asked, ready, body.len(), answer)?;
    answer.extend_from_slice(body)
}
