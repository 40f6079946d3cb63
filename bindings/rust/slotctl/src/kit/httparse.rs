//! Heads of HTTP over the original `httparse`, in the form of the kit's: where each part lies, and nothing borrowed.

pub use ::httparse::Status;

pub mod spans {
    //! The kit's `httparse::spans`.
    use ::httparse::{Request, Response, Result, Status, EMPTY_HEADER};

    /// The most fields of a head.
    const MOST_FIELDS: usize = 64;

    /// Where a part lies.
    #[derive(Clone, Copy)]
    pub struct Span {
        start: usize,
        len: usize,
    }

    impl Span {
        /// From where so many bytes lie.
        pub fn new(start: usize, len: usize) -> Span {
            Span { start, len }
        }

        /// `of`: the part.
        pub fn of<'b>(&self, bytes: &'b [u8]) -> &'b [u8] {
            &bytes[self.start..self.start + self.len]
        }

        /// Where a part of these bytes lies in them.
        fn within(bytes: &[u8], part: &[u8]) -> Span {
            Span {
                start: part.as_ptr() as usize - bytes.as_ptr() as usize,
                len: part.len(),
            }
        }
    }

    /// Where a field lies.
    #[derive(Clone, Copy)]
    pub struct HeaderSpan {
        /// Its name.
        pub name: Span,
        /// Its value.
        pub value: Span,
    }

    /// `EMPTY_HEADER_SPAN`: no field.
    pub const EMPTY_HEADER_SPAN: HeaderSpan = HeaderSpan {
        name: Span { start: 0, len: 0 },
        value: Span { start: 0, len: 0 },
    };

    /// Where the parts of a request's head lie.
    pub struct RequestSpans {
        /// Its method.
        pub method: Span,
        /// What it asks for.
        pub path: Span,
    }

    /// What the head of a response says, and where its fields lie.
    pub struct ResponseSpans {
        /// Its minor version: HTTP/1.0 or HTTP/1.1.
        pub version: u8,
        /// Its code.
        pub code: u16,
        /// How many fields it has.
        pub headers: usize,
        /// How many bytes it has.
        pub len: usize,
    }

    /// `parse_request`: where the parts of a request's head lie.
    ///
    /// # Errors
    ///
    /// What is wrong with it.
    pub fn parse_request(bytes: &[u8], fields: &mut [HeaderSpan]) -> Result<RequestSpans> {
        let mut headers = [EMPTY_HEADER; MOST_FIELDS];
        let mut request = Request::new(&mut headers[..fields.len().min(MOST_FIELDS)]);
        if request.parse(bytes)?.is_partial() {
            return Ok(Status::Partial);
        }
        let (Some(method), Some(path)) = (request.method, request.path) else {
            return Err(::httparse::Error::Token);
        };
        // The original has a text of its own for a method that it knows, so its place is found by what follows it.
        let path = Span::within(bytes, path.as_bytes());
        Ok(Status::Complete(RequestSpans {
            method: Span::new(path.start - 1 - method.len(), method.len()),
            path,
        }))
    }

    /// `parse_response`: what the head of a response says, and where its fields lie.
    ///
    /// # Errors
    ///
    /// What is wrong with it.
    pub fn parse_response(bytes: &[u8], fields: &mut [HeaderSpan]) -> Result<ResponseSpans> {
        let mut headers = [EMPTY_HEADER; MOST_FIELDS];
        let mut response = Response::new(&mut headers[..fields.len().min(MOST_FIELDS)]);
        let len = match response.parse(bytes)? {
            Status::Complete(len) => len,
            Status::Partial => return Ok(Status::Partial),
        };
        for (field, header) in fields.iter_mut().zip(response.headers.iter()) {
            field.name = Span::within(bytes, header.name.as_bytes());
            field.value = Span::within(bytes, header.value);
        }
        Ok(Status::Complete(ResponseSpans {
            version: response.version.unwrap_or(0),
            code: response.code.unwrap_or(0),
            headers: response.headers.len(),
            len,
        }))
    }
}
