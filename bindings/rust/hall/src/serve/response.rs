//! An answer in HTTP.

use super::json::Json;
use std::io::{self, Write};

#[derive(Clone, Debug, PartialEq, Eq)]
pub struct Response {
    pub status: u16,
    content_type: &'static str,
    /// The methods that a path takes, with 405.
    allow: Option<&'static str>,
    body: Vec<u8>,
}

/// What every answer says besides its own: a page gets what it needs from this server alone, and no other
/// page frames it.
const HEADERS: &str = "\
Cache-Control: no-store\r
Connection: close\r
Content-Security-Policy: default-src 'self'; base-uri 'none'; form-action 'self'; frame-ancestors 'none'\r
Referrer-Policy: no-referrer\r
X-Content-Type-Options: nosniff\r
";

impl Response {
    pub fn new(content_type: &'static str, body: impl Into<Vec<u8>>) -> Response {
        Response { status: 200, content_type, allow: None, body: body.into() }
    }

    pub fn json(json: &Json) -> Response {
        Response::new("application/json; charset=utf-8", json.to_string())
    }

    /// Nothing to tell.
    pub fn empty() -> Response {
        Response { status: 204, ..Response::new("", Vec::new()) }
    }

    /// A status with a sentence that says what is wrong.
    pub fn error(status: u16, sentence: impl Into<String>) -> Response {
        let error = Json::Object(vec![("error", sentence.into().into())]);
        Response { status, ..Response::json(&error) }
    }

    /// A method that a path does not take.
    pub fn not_allowed(allow: &'static str) -> Response {
        let sentence = format!("This method is not allowed here: {allow} is expected.");
        Response { allow: Some(allow), ..Response::error(405, sentence) }
    }

    /// Writes the answer, without its body where the request asked for the head alone.
    pub fn write(&self, to: &mut impl Write, head_alone: bool) -> io::Result<()> {
        let mut head = format!("HTTP/1.1 {} {}\r\n{HEADERS}", self.status, reason(self.status));
        if let Some(allow) = self.allow {
            head += &format!("Allow: {allow}\r\n");
        }
        if self.status != 204 {
            let (kind, size) = (self.content_type, self.body.len());
            head += &format!("Content-Type: {kind}\r\nContent-Length: {size}\r\n");
        }
        let mut bytes = (head + "\r\n").into_bytes();
        if !head_alone {
            bytes.extend(&self.body);
        }
        to.write_all(&bytes)?;
        to.flush()
    }
}

fn reason(status: u16) -> &'static str {
    match status {
        200 => "OK",
        204 => "No Content",
        400 => "Bad Request",
        403 => "Forbidden",
        404 => "Not Found",
        405 => "Method Not Allowed",
        408 => "Request Timeout",
        411 => "Length Required",
        413 => "Content Too Large",
        415 => "Unsupported Media Type",
        431 => "Request Header Fields Too Large",
        500 => "Internal Server Error",
        501 => "Not Implemented",
        503 => "Service Unavailable",
        _ => "Unknown",
    }
}

#[cfg(test)]
mod tests {
    use super::*;

    fn written(response: &Response, head_alone: bool) -> String {
        let mut bytes = Vec::new();
        response.write(&mut bytes, head_alone).expect("a list takes all");
        String::from_utf8(bytes).expect("the answer is text")
    }

    #[test]
    fn an_error_is_a_sentence_in_json() {
        let text = written(&Response::error(404, "No \"such\" path."), false);
        assert!(text.starts_with("HTTP/1.1 404 Not Found\r\n"), "{text}");
        assert!(text.contains("\r\nContent-Length: 29\r\n"), "{text}");
        assert!(text.ends_with("\r\n\r\n{\"error\":\"No \\\"such\\\" path.\"}"), "{text}");
        assert!(!text.contains("Allow"), "{text}");
    }

    #[test]
    fn an_empty_answer_has_no_body_and_a_head_alone_none_either() {
        let text = written(&Response::empty(), false);
        assert!(text.starts_with("HTTP/1.1 204 No Content\r\n") && text.ends_with("\r\n\r\n"));
        assert!(!text.contains("\nContent-Length") && !text.contains("\nContent-Type"));
        let text = written(&Response::not_allowed("GET"), true);
        assert!(text.contains("\r\nAllow: GET\r\n") && text.ends_with("\r\n\r\n"), "{text}");
    }

    #[test]
    fn every_status_that_is_used_has_a_reason() {
        for status in [200, 204, 400, 403, 404, 405, 408, 411, 413, 415, 431, 500, 501, 503] {
            assert_ne!(reason(status), "Unknown", "{status}");
        }
    }
}
