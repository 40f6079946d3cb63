// Erased by bindings/rust/erase from crates/service_log/src/etcd/exchange.rt, sha256 284a268e7c514e7a2184fcb4e582487f59f6566686c8dd13d130e737574ebb4f.
//! One request and its response, over any stream.

use crate::kit::alloc::Global;
use crate::kit::http1::{BodySize, Client, Event, Header};
use crate::kit::httparse::spans::EMPTY_HEADER_SPAN;
use crate::kit::io::{Read, Write};
use crate::kit::Vec;
use crate::proved::service_log::store_fault::StoreFault;

/// The most bytes of the body of a response: 2^25.
pub const MOST_BODY: usize = 33_554_432;

/// The most events of one response.
const MOST_EVENTS: u64 = 1_000_000;

/// A response.
pub struct Response {
    /// The HTTP status.
    pub status: u16,
    /// The body: at most `MOST_BODY` bytes.
    pub body: Vec<u8>,
}

// What to do after an event.
enum Next {
    // Read the next event.
    Event,
    // Read more bytes.
    Bytes,
    // The response has ended.
    Nothing,
}

// Appends the bytes of a request, and returns false if an allocation failed. Not proved: it has no clause.
fn put_request(output: &mut Vec<u8>, client: &mut Client, target: &[u8], body: &[u8]) -> bool {
    let headers = [
        Header {
            name: b"host",
            value: b"etcd",
        },
        Header {
            name: b"content-type",
            value: b"application/json",
        },
    ];
    let size = BodySize::Known(body.len() as u64);
    client
        .write_request(output, b"POST", target, &headers, size)
        .is_ok()
        && client.write_data(output, body).is_ok()
        && client.write_end(output, &[]).is_ok()
}

// Reads one event of the unread bytes, and returns how many it took.
fn read_event(
    client: &mut Client,
    unread: &[u8],
    response: &mut Response,
) -> Result<(usize, Next), StoreFault> {
    let mut spans = [EMPTY_HEADER_SPAN; 32];
    let Ok(read) = client.read(unread, &mut spans) else {
        return Err(StoreFault::Wrong);
    };
    match read.event {
        Event::NeedMore => Ok((read.consumed, Next::Bytes)),
        Event::Head(head) => {
            response.status = head.code;
            Ok((read.consumed, Next::Event))
        }
        Event::Informational(_) => Ok((read.consumed, Next::Event)),
        Event::Data(span) => {
            let piece = span.of(unread);
            if MOST_BODY < piece.len() || MOST_BODY - piece.len() < response.body.len() {
                return Err(StoreFault::Wrong);
            }
            match response.body.extend_from_slice(piece) {
                Ok(()) => Ok((read.consumed, Next::Event)),
                Err(_) => Err(StoreFault::Memory),
            }
        }
        Event::End(_) => Ok((read.consumed, Next::Nothing)),
        Event::Paused | Event::Closed => Err(StoreFault::Lost),
    }
}

// Appends what a stream gives next. It fails if the stream gives nothing.
fn fill<S: Read>(stream: &mut S, input: &mut Vec<u8>) -> Result<(), StoreFault> {
    let mut chunk = [0u8; 16384];
    match stream.read(&mut chunk) {
        Ok(0) | Err(_) => Err(StoreFault::Lost),
        Ok(count) => match input.extend_from_slice(&chunk[..count]) {
            Ok(()) => Ok(()),
            Err(_) => Err(StoreFault::Memory),
        },
    }
}

// Reads a response to its end. No byte may follow it.
fn receive<S: Read>(
    alloc: Global,
    client: &mut Client,
    stream: &mut S,
) -> Result<Response, StoreFault> {
    let mut input: Vec<u8> = Vec::new(alloc);
    let mut from = 0;
    let mut response = Response {
        status: 0,
        body: Vec::new(alloc),
    };
    for _ in 0..MOST_EVENTS {
        let (consumed, next) = read_event(client, &input[from..], &mut response)?;
        from += consumed;
        match next {
            Next::Event => {}
            Next::Bytes => fill(stream, &mut input)?,
            Next::Nothing if from == input.len() => return Ok(response),
            Next::Nothing => return Err(StoreFault::Wrong),
        }
    }
    Err(StoreFault::Wrong)
}

/// Sends a request, and reads the response to its end. After a fault the connection is of no more use.
///
/// # Errors
///
/// - `Memory`: an allocation failed.
/// - `Lost`: a write or a read failed, or the connection ended.
/// - `Wrong`: the bytes are no response, they go on after it, or its body is longer than `MOST_BODY`.
pub fn exchange<S: Read + Write>(
    alloc: Global,
    client: &mut Client,
    stream: &mut S,
    target: &[u8],
    body: &[u8],
) -> Result<Response, StoreFault> {
    let mut output = Vec::new(alloc);
    if !put_request(&mut output, client, target, body) {
        return Err(StoreFault::Memory);
    }
    if stream.write_all(&output).is_err() {
        return Err(StoreFault::Lost);
    }
    receive(alloc, client, stream)
}
