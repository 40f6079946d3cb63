//! One connection of HTTP/1.1 to a server, in the place of the kit's `http1`: as much of its `Client` as the log asks for.

use super::alloc::AllocError;
use super::httparse::spans::{parse_response, HeaderSpan, ResponseSpans, Span};
use super::httparse::Status;
use super::Vec;

/// The most bytes of a head, of the line of a chunk and of what follows the last.
const MOST_HEAD: usize = 16_384;

/// `Limits`: those of the kit.
#[derive(Default)]
pub struct Limits;

/// A field to be sent.
pub struct Header<'a> {
    /// Its name.
    pub name: &'a [u8],
    /// Its value.
    pub value: &'a [u8],
}

/// How long a body is.
pub enum BodySize {
    /// So many bytes.
    Known(u64),
}

/// What is wrong with a response.
#[derive(Debug)]
pub struct ReadError;

/// What was read, and how many bytes of it are done with.
pub struct Read {
    /// How many bytes are done with.
    pub consumed: usize,
    /// What they were.
    pub event: Event,
}

/// What was read.
pub enum Event {
    /// More bytes are wanted.
    NeedMore,
    /// The head of the response.
    Head(ResponseSpans),
    /// A head before it.
    Informational(()),
    /// A piece of the body.
    Data(Span),
    /// The end of the response.
    End(()),
    /// No request was sent.
    Paused,
    /// The response before was the last.
    Closed,
}

/// Where the client stands.
#[derive(Clone, Copy, PartialEq, Eq)]
enum State {
    Idle,
    Head,
    Body(u64),
    UntilClose,
    ChunkLine,
    Chunk(u64),
    ChunkEnd,
    Trailers,
    Closed,
}

/// A client of one connection.
pub struct Client {
    state: State,
    keeps: bool,
}

impl Client {
    /// `new`: one that has sent nothing.
    pub fn new(_limits: Limits) -> Client {
        Client {
            state: State::Idle,
            keeps: true,
        }
    }

    /// `is_idle`: whether a request may be sent.
    pub fn is_idle(&self) -> bool {
        self.state == State::Idle
    }

    /// `write_request`: appends the head of a request.
    ///
    /// # Errors
    ///
    /// `AllocError` where an allocation failed.
    pub fn write_request(
        &mut self,
        output: &mut Vec<u8>,
        method: &[u8],
        target: &[u8],
        headers: &[Header<'_>],
        size: BodySize,
    ) -> Result<(), AllocError> {
        let BodySize::Known(size) = size;
        for part in [method, b" ", target, b" HTTP/1.1\r\n"] {
            output.extend_from_slice(part)?;
        }
        for header in headers {
            for part in [header.name, b": ", header.value, b"\r\n"] {
                output.extend_from_slice(part)?;
            }
        }
        output.extend_from_slice(b"content-length: ")?;
        output.extend_from_slice(itoa::Buffer::new().format(size).as_bytes())?;
        output.extend_from_slice(b"\r\n\r\n")?;
        self.state = State::Head;
        Ok(())
    }

    /// `write_data`: appends a piece of the body.
    ///
    /// # Errors
    ///
    /// `AllocError` where an allocation failed.
    pub fn write_data(&mut self, output: &mut Vec<u8>, piece: &[u8]) -> Result<(), AllocError> {
        output.extend_from_slice(piece)
    }

    /// `write_end`: ends the request.
    ///
    /// # Errors
    ///
    /// None here.
    pub fn write_end(
        &mut self,
        _output: &mut Vec<u8>,
        _trailers: &[Header<'_>],
    ) -> Result<(), AllocError> {
        Ok(())
    }

    /// `read`: what comes next of the response, in bytes that were not read yet.
    ///
    /// # Errors
    ///
    /// `ReadError` where they are no response.
    pub fn read(&mut self, bytes: &[u8], fields: &mut [HeaderSpan]) -> Result<Read, ReadError> {
        match self.state {
            State::Idle => event(0, Event::Paused),
            State::Closed => event(0, Event::Closed),
            State::Head => self.read_head(bytes, fields),
            State::Body(0) => self.end(0),
            State::Body(left) => self.read_data(bytes, left, State::Body),
            State::UntilClose => self.read_data(bytes, u64::MAX, |_| State::UntilClose),
            State::ChunkLine => self.read_chunk_line(bytes),
            State::Chunk(left) => self.read_data(bytes, left, |left| match left {
                0 => State::ChunkEnd,
                _ => State::Chunk(left),
            }),
            State::ChunkEnd => self.read_chunk_end(bytes),
            State::Trailers => self.read_trailers(bytes),
        }
    }

    fn end(&mut self, consumed: usize) -> Result<Read, ReadError> {
        self.state = if self.keeps {
            State::Idle
        } else {
            State::Closed
        };
        event(consumed, Event::End(()))
    }

    fn read_head(&mut self, bytes: &[u8], fields: &mut [HeaderSpan]) -> Result<Read, ReadError> {
        let head = match parse_response(bytes, fields) {
            Ok(Status::Complete(head)) => head,
            Ok(Status::Partial) => return need_more(bytes),
            Err(_) => return Err(ReadError),
        };
        let consumed = head.len;
        if (100..200).contains(&head.code) {
            return match head.code {
                101 => Err(ReadError),
                _ => event(consumed, Event::Informational(())),
            };
        }
        let known = Known::of(bytes, &fields[..head.headers])?;
        self.keeps = head.version == 1 && !known.closes;
        self.state = match (head.code, known.is_chunked, known.length) {
            (204 | 304, _, _) => State::Body(0),
            (_, true, Some(_)) => return Err(ReadError),
            (_, true, None) => State::ChunkLine,
            (_, false, Some(length)) => State::Body(length),
            (_, false, None) => State::UntilClose,
        };
        event(consumed, Event::Head(head))
    }

    /// A piece of at most so many bytes, after which so many are left.
    fn read_data(
        &mut self,
        bytes: &[u8],
        left: u64,
        next: impl Fn(u64) -> State,
    ) -> Result<Read, ReadError> {
        let count = usize::try_from(left).map_or(bytes.len(), |left| left.min(bytes.len()));
        if count == 0 {
            return event(0, Event::NeedMore);
        }
        self.state = next(left - count as u64);
        event(count, Event::Data(Span::new(0, count)))
    }

    fn read_chunk_line(&mut self, bytes: &[u8]) -> Result<Read, ReadError> {
        let Some(line) = line_of(bytes)? else {
            return event(0, Event::NeedMore);
        };
        let size = line.split(|byte| *byte == b';').next().unwrap_or(line);
        let size = size.trim_ascii_end();
        if size.is_empty() || !size.iter().all(u8::is_ascii_hexdigit) {
            return Err(ReadError);
        }
        let text = std::str::from_utf8(size).map_err(|_| ReadError)?;
        let size = u64::from_str_radix(text, 16).map_err(|_| ReadError)?;
        self.state = if size == 0 {
            State::Trailers
        } else {
            State::Chunk(size)
        };
        self.go_on(bytes, line.len() + 2)
    }

    fn read_chunk_end(&mut self, bytes: &[u8]) -> Result<Read, ReadError> {
        match bytes {
            [b'\r', b'\n', ..] => {
                self.state = State::ChunkLine;
                self.go_on(bytes, 2)
            }
            [] | [b'\r'] => event(0, Event::NeedMore),
            _ => Err(ReadError),
        }
    }

    fn read_trailers(&mut self, bytes: &[u8]) -> Result<Read, ReadError> {
        match line_of(bytes)? {
            Some([]) => self.end(2),
            Some(line) => self.go_on(bytes, line.len() + 2),
            None => event(0, Event::NeedMore),
        }
    }

    /// Reads on behind what is done with.
    fn go_on(&mut self, bytes: &[u8], consumed: usize) -> Result<Read, ReadError> {
        let read = self.read(&bytes[consumed..], &mut [])?;
        let event = match read.event {
            Event::Data(span) => {
                let piece = span.of(&bytes[consumed..]).len();
                Event::Data(Span::new(consumed, piece))
            }
            other => other,
        };
        Ok(Read {
            consumed: consumed + read.consumed,
            event,
        })
    }
}

fn event(consumed: usize, event: Event) -> Result<Read, ReadError> {
    Ok(Read { consumed, event })
}

fn need_more(bytes: &[u8]) -> Result<Read, ReadError> {
    if MOST_HEAD < bytes.len() {
        return Err(ReadError);
    }
    event(0, Event::NeedMore)
}

/// The line that bytes begin with, without its end, if it is whole. It ends in CR and LF.
fn line_of(bytes: &[u8]) -> Result<Option<&[u8]>, ReadError> {
    match bytes.iter().position(|byte| *byte == b'\n') {
        Some(at) if at <= MOST_HEAD => match bytes[..at].split_last() {
            Some((b'\r', line)) => Ok(Some(line)),
            _ => Err(ReadError),
        },
        None if bytes.len() <= MOST_HEAD => Ok(None),
        _ => Err(ReadError),
    }
}

/// What the fields of a head say of its body and of the connection.
struct Known {
    length: Option<u64>,
    is_chunked: bool,
    closes: bool,
}

impl Known {
    fn of(bytes: &[u8], fields: &[HeaderSpan]) -> Result<Known, ReadError> {
        let mut known = Known {
            length: None,
            is_chunked: false,
            closes: false,
        };
        for field in fields {
            known.note(field.name.of(bytes), field.value.of(bytes))?;
        }
        Ok(known)
    }

    fn note(&mut self, name: &[u8], value: &[u8]) -> Result<(), ReadError> {
        if name.eq_ignore_ascii_case(b"content-length") {
            let length = length_of(value).ok_or(ReadError)?;
            if self.length.is_some_and(|other| other != length) {
                return Err(ReadError);
            }
            self.length = Some(length);
        } else if name.eq_ignore_ascii_case(b"transfer-encoding") {
            if self.is_chunked || !value.trim_ascii().eq_ignore_ascii_case(b"chunked") {
                return Err(ReadError);
            }
            self.is_chunked = true;
        } else if name.eq_ignore_ascii_case(b"connection") {
            let mut options = value.split(|byte| *byte == b',');
            let closes = |option: &[u8]| option.trim_ascii().eq_ignore_ascii_case(b"close");
            self.closes = self.closes || options.any(closes);
        }
        Ok(())
    }
}

/// A number of digits alone.
fn length_of(value: &[u8]) -> Option<u64> {
    let digits = value.trim_ascii();
    if digits.is_empty() || !digits.iter().all(u8::is_ascii_digit) {
        return None;
    }
    std::str::from_utf8(digits).ok()?.parse().ok()
}
