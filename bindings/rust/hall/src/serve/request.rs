//! A request in HTTP: its head, and the body of a POST.

use super::response::Response;
use std::io::{ErrorKind, Read};

pub const MOST_HEAD: usize = 8 * 1024;
pub const MOST_BODY: usize = 1024;
const FORM: &str = "application/x-www-form-urlencoded";

#[derive(Debug)]
pub struct Head {
    pub method: String,
    pub path: String,
    /// What stands behind the path's question mark.
    pub query: Option<String>,
    headers: Vec<(String, String)>,
    /// The bytes that came with the head and are the body's.
    rest: Vec<u8>,
}

impl Head {
    /// Reads up to the empty line. There is none where nothing comes, as on a connection that a browser opens
    /// to be ready.
    pub fn read(from: &mut impl Read) -> Result<Option<Head>, Response> {
        let mut bytes = Vec::new();
        let end = loop {
            let end = bytes.windows(4).position(|four| four == b"\r\n\r\n");
            match end {
                Some(end) if end + 4 <= MOST_HEAD => break end,
                None if bytes.len() < MOST_HEAD => {}
                _ => return Err(Response::error(431, "The request's head is over 8192 bytes.")),
            }
            let mut part = [0; 1024];
            match read_some(from, &mut part) {
                Ok(0) | Err(_) if bytes.is_empty() => return Ok(None),
                Err(silence) => return Err(silence),
                Ok(0) => return Err(bad("The request ends within its head.")),
                Ok(size) => bytes.extend(&part[..size]),
            }
        };
        let rest = bytes.split_off(end + 4);
        bytes.truncate(end);
        let text = String::from_utf8(bytes).map_err(|_| bad("The request's head is not UTF-8."))?;
        Head::parse(&text, rest).map(Some)
    }

    fn parse(text: &str, rest: Vec<u8>) -> Result<Head, Response> {
        let mut lines = text.split("\r\n");
        let words: Vec<&str> = lines.next().unwrap_or_default().split(' ').collect();
        let [method, target, "HTTP/1.1" | "HTTP/1.0"] = words[..] else {
            return Err(bad("The request's first line is no method, path and HTTP/1.1."));
        };
        let is_path = target.starts_with('/') && target.bytes().all(|byte| byte.is_ascii_graphic());
        if !is_token(method) || !is_path {
            return Err(bad("The request's first line has no method or no path."));
        }
        let (path, query) = match target.split_once('?') {
            Some((path, query)) => (path, Some(query.to_string())),
            None => (target, None),
        };
        let headers = lines.map(parse_header).collect::<Result<_, _>>()?;
        let (method, path) = (method.to_string(), path.to_string());
        Ok(Head { method, path, query, headers, rest })
    }

    /// The value of a header, whose name is given in lower case. One that comes twice is refused.
    pub fn header(&self, name: &str) -> Result<Option<&str>, Response> {
        let mut values = self.headers.iter().filter(|(known, _)| known == name);
        match (values.next(), values.next()) {
            (Some(_), Some(_)) => Err(bad(&format!("The header {name} comes twice."))),
            (first, _) => Ok(first.map(|(_, value)| value.as_str())),
        }
    }

    /// Reads the body of a POST, whose length must be told.
    pub fn read_body(&self, from: &mut impl Read) -> Result<Vec<u8>, Response> {
        let Some(length) = self.content_length()? else {
            return Err(Response::error(411, "A POST needs a Content-Length."));
        };
        if length > MOST_BODY {
            return Err(Response::error(413, "The request's body is over 1024 bytes."));
        }
        let mut body = self.rest.clone();
        while body.len() < length {
            let mut part = [0; MOST_BODY];
            match read_some(from, &mut part)? {
                0 => return Err(bad("The request ends within its body.")),
                size => body.extend(&part[..size]),
            }
        }
        body.truncate(length);
        Ok(body)
    }

    /// Fails where a GET has a body.
    pub fn expect_no_body(&self) -> Result<(), Response> {
        match self.content_length()? {
            None | Some(0) => Ok(()),
            Some(_) => Err(bad("A GET has no body here.")),
        }
    }

    /// Fails where a body is told to be anything but a form.
    pub fn expect_form(&self) -> Result<(), Response> {
        let Some(told) = self.header("content-type")? else { return Ok(()) };
        let (media_type, _) = told.split_once(';').unwrap_or((told, ""));
        match media_type.trim().eq_ignore_ascii_case(FORM) {
            true => Ok(()),
            false => Err(Response::error(415, format!("A body of the type {FORM} is expected."))),
        }
    }

    /// A length that is too large for a number is one that is over every limit.
    fn content_length(&self) -> Result<Option<usize>, Response> {
        if self.header("transfer-encoding")?.is_some() {
            return Err(Response::error(501, "Transfer encodings are not taken here."));
        }
        let Some(text) = self.header("content-length")? else { return Ok(None) };
        match !text.is_empty() && text.bytes().all(|byte| byte.is_ascii_digit()) {
            true => Ok(Some(text.parse().unwrap_or(usize::MAX))),
            false => Err(bad("The Content-Length is no whole number.")),
        }
    }
}

fn bad(sentence: &str) -> Response {
    Response::error(400, sentence)
}

/// Reads what is there; the other side's closing is an end, and its silence is told.
fn read_some(from: &mut impl Read, into: &mut [u8]) -> Result<usize, Response> {
    loop {
        match from.read(into) {
            Ok(size) => return Ok(size),
            Err(error) => match error.kind() {
                ErrorKind::Interrupted => {}
                ErrorKind::TimedOut | ErrorKind::WouldBlock => {
                    return Err(Response::error(408, "The request did not come within 5 seconds."));
                }
                _ => return Ok(0),
            },
        }
    }
}

/// A name in lower case and its value, without the spaces about it.
fn parse_header(line: &str) -> Result<(String, String), Response> {
    let malformed = || bad("A line of the request's head is no header.");
    let (name, value) = line.split_once(':').ok_or_else(malformed)?;
    let is_value = value.chars().all(|one| one == '\t' || !one.is_control());
    if !is_token(name) || !is_value {
        return Err(malformed());
    }
    Ok((name.to_ascii_lowercase(), value.trim_matches([' ', '\t']).to_string()))
}

/// The characters of a method's or a header's name.
fn is_token(text: &str) -> bool {
    let is_sign = |byte: u8| b"!#$%&'*+-.^_`|~".contains(&byte);
    !text.is_empty() && text.bytes().all(|byte| byte.is_ascii_alphanumeric() || is_sign(byte))
}

#[cfg(test)]
mod tests {
    use super::*;

    fn read(bytes: &[u8]) -> Result<Option<Head>, u16> {
        Head::read(&mut &bytes[..]).map_err(|response| response.status)
    }

    fn good(text: &str) -> Head {
        read(text.as_bytes()).expect("a good head").expect("a request")
    }

    #[test]
    fn a_head_is_read() {
        let head = good("GET /state?seen=3 HTTP/1.1\r\nHost: a:1\r\nX-Y:  b c\t\r\n\r\n");
        assert_eq!(
            (&*head.method, &*head.path, head.query.as_deref()),
            ("GET", "/state", Some("seen=3"))
        );
        assert_eq!(head.header("host"), Ok(Some("a:1")));
        assert_eq!(head.header("x-y"), Ok(Some("b c")));
        assert_eq!(head.header("origin"), Ok(None));
        assert!(read(b"").expect("no request").is_none());
    }

    #[test]
    fn a_body_is_as_long_as_is_told() {
        let head = good("POST /door HTTP/1.1\r\nContent-Length: 8\r\n\r\nopen=");
        assert_eq!(head.read_body(&mut &b"yes and more"[..]), Ok(b"open=yes".to_vec()));
        let status = |more: &[u8]| head.read_body(&mut &more[..]).expect_err("short").status;
        assert_eq!(status(b"ye"), 400);
    }

    #[test]
    fn malformed_heads_are_refused() {
        for text in [
            "GET / HTTP/1.1 \r\n\r\n",
            "GET  / HTTP/1.1\r\n\r\n",
            "GET /\r\n\r\n",
            "GET / HTTP/2\r\n\r\n",
            "G\u{e9}T / HTTP/1.1\r\n\r\n",
            "GET http://a/ HTTP/1.1\r\n\r\n",
            "GET /a\tb HTTP/1.1\r\n\r\n",
            "GET / HTTP/1.1\r\nHost\r\n\r\n",
            "GET / HTTP/1.1\r\nHost : a\r\n\r\n",
            "GET / HTTP/1.1\r\n: a\r\n\r\n",
            "GET / HTTP/1.1\r\nHost: a\r\n b\r\n\r\n",
            "GET / HTTP/1.1\r\nHost: a\nb\r\n\r\n",
            "GET / HTTP/1.1\nHost: a\r\n\r\n",
            "\r\n\r\n",
            "GET / HTTP/1.1\r\nHost: a\r\n",
        ] {
            assert_eq!(read(text.as_bytes()).map(|_| ()), Err(400), "{text:?}");
        }
        assert_eq!(read(b"GET /\xff HTTP/1.1\r\n\r\n").map(|_| ()), Err(400));
    }

    #[test]
    fn a_head_has_its_most() {
        let with = |size: usize| format!("GET / HTTP/1.1\r\nX: {}\r\n\r\n", "a".repeat(size));
        let spare = MOST_HEAD - with(0).len();
        assert!(read(with(spare).as_bytes()).is_ok());
        assert_eq!(read(with(spare + 1).as_bytes()).map(|_| ()), Err(431));
        assert_eq!(read("a".repeat(3 * MOST_HEAD).as_bytes()).map(|_| ()), Err(431));
    }

    #[test]
    fn lengths_are_tested() {
        for (headers, expected) in [
            ("", 411),
            ("Content-Length: 1025\r\n", 413),
            ("Content-Length: 99999999999999999999999\r\n", 413),
            ("Content-Length: +1\r\n", 400),
            ("Content-Length:\r\n", 400),
            ("Content-Length: 1\r\nContent-Length: 1\r\n", 400),
            ("Transfer-Encoding: chunked\r\n", 501),
            ("Content-Length: 0\r\nTransfer-Encoding: identity\r\n", 501),
        ] {
            let head = good(&format!("POST / HTTP/1.1\r\n{headers}\r\n"));
            let status = head.read_body(&mut &b""[..]).expect_err(headers).status;
            assert_eq!(status, expected, "{headers}");
        }
        assert_eq!(good("GET / HTTP/1.1\r\n\r\n").expect_no_body(), Ok(()));
        let body = good("GET / HTTP/1.1\r\nContent-Length: 1\r\n\r\n").expect_no_body();
        assert_eq!(body.expect_err("a body").status, 400);
    }

    /// A connection on which nothing more comes.
    struct Silent;

    impl Read for Silent {
        fn read(&mut self, _: &mut [u8]) -> std::io::Result<usize> {
            Err(ErrorKind::WouldBlock.into())
        }
    }

    #[test]
    fn silence_within_a_request_is_told() {
        assert!(Head::read(&mut Silent).expect("no request").is_none());
        let mut begun = b"GET / HTTP/1.1\r\n".chain(Silent);
        assert_eq!(Head::read(&mut begun).expect_err("no end comes").status, 408);
        let head = good("POST /door HTTP/1.1\r\nContent-Length: 8\r\n\r\nopen=");
        assert_eq!(head.read_body(&mut Silent).expect_err("no body comes").status, 408);
    }

    #[test]
    fn a_body_of_another_type_is_refused() {
        for (value, expected) in [
            ("application/x-www-form-urlencoded", None),
            ("Application/X-WWW-Form-Urlencoded;charset=UTF-8", None),
            ("text/plain", Some(415)),
            ("", Some(415)),
        ] {
            let head = good(&format!("POST / HTTP/1.1\r\nContent-Type: {value}\r\n\r\n"));
            let status = head.expect_form().err().map(|response| response.status);
            assert_eq!(status, expected, "{value}");
        }
        assert_eq!(good("POST / HTTP/1.1\r\n\r\n").expect_form(), Ok(()));
    }
}
