//! Each refusal.

use crate::client::{Answer, Served};
use std::io::Write;
use std::net::TcpStream;

/// Lines of a request's head, each with its end, and the empty line.
fn head(lines: &[&str]) -> Vec<u8> {
    let lines: String = lines.iter().map(|line| format!("{line}\r\n")).collect();
    (lines + "\r\n").into_bytes()
}

fn assert_refused(served: &Served, request: &[u8], status: u16, named: &str) -> Answer {
    let shown = String::from_utf8_lossy(request).chars().take(200).collect::<String>();
    let answer = served.send(request);
    assert_eq!(answer.status, status, "{shown:?}");
    let sentence = answer.sentence();
    assert!(sentence.contains(named), "{shown:?}: {sentence}");
    answer
}

#[test]
fn other_paths_and_methods() {
    let served = Served::start();
    let host = format!("Host: {}", served.host());
    for path in ["/favicon.ico", "/page", "/../Cargo.toml", "/page.js/", "//", "/image/", "/State"]
    {
        let request = head(&[&format!("GET {path} HTTP/1.1"), &host]);
        assert_refused(&served, &request, 404, "nothing at this path");
    }
    for (line, allow) in [
        ("DELETE / HTTP/1.1", "GET"),
        ("PUT /state HTTP/1.1", "GET"),
        ("POST /state HTTP/1.1", "GET"),
        ("GET /edit HTTP/1.1", "POST"),
        ("OPTIONS /edit HTTP/1.1", "POST"),
        ("PATCH /nothing HTTP/1.1", "GET, POST"),
    ] {
        let answer = assert_refused(&served, &head(&[line, &host]), 405, "not allowed");
        assert_eq!(answer.header("Allow"), Some(allow), "{line}");
    }
    let answer = served.send(&head(&["HEAD / HTTP/1.1", &host]));
    assert_eq!((answer.status, answer.header("Allow")), (405, Some("GET")));
    assert!(answer.body.is_empty());
}

#[test]
fn other_hosts_and_origins() {
    let served = Served::start();
    let port = served.port;
    for host in [
        "Host: example.org".to_string(),
        format!("Host: example.org:{port}"),
        "Host: 127.0.0.1".into(),
        format!("Host: 127.0.0.1:{}", port ^ 1),
        format!("Host: 127.0.0.1.example.org:{port}"),
        "X: y".into(),
    ] {
        let answer = served.send(&head(&["GET /state HTTP/1.1", &host]));
        assert_eq!(answer.status, 403, "{host}");
        assert!(answer.sentence().contains("Host"), "{host}");
    }
    let own = format!("Host: localhost:{port}");
    assert_eq!(served.send(&head(&["GET /state HTTP/1.1", &own])).status, 200);
    for origin in [
        "Origin: http://example.org".to_string(),
        "Origin: null".into(),
        format!("Origin: http://127.0.0.1:{port}"),
        format!("Origin: https://localhost:{port}"),
        "X: y".into(),
    ] {
        let lines = ["POST /send-again HTTP/1.1", &own, "Content-Length: 0", &origin];
        assert_refused(&served, &head(&lines), 403, "Origin");
    }
    let origin = format!("Origin: http://localhost:{port}");
    let lines = ["POST /send-again HTTP/1.1", &own, "Content-Length: 0", &origin];
    assert_eq!(served.send(&head(&lines)).status, 200);
}

#[test]
fn heads_that_are_malformed_or_too_long() {
    let served = Served::start();
    let host = format!("Host: {}", served.host());
    for lines in [
        vec!["GET /state", &host],
        vec!["GET /state HTTP/3", &host],
        vec!["GET state HTTP/1.1", &host],
        vec!["GET http://127.0.0.1/state HTTP/1.1", &host],
        vec!["GET /state HTTP/1.1", &host, "no header"],
        vec!["GET /state HTTP/1.1", &host, " folded: x"],
        vec!["GET /state HTTP/1.1", &host, &host],
    ] {
        assert_refused(&served, &head(&lines), 400, " ");
    }
    assert_refused(&served, b"GET /\xff HTTP/1.1\r\n\r\n", 400, "UTF-8");
    let long = format!("X: {}", "a".repeat(9000));
    assert_refused(&served, &head(&["GET / HTTP/1.1", &host, &long]), 431, "8192 bytes");
    assert_refused(&served, &[b'a'; 20_000], 431, "8192 bytes");
}

#[test]
fn bodies_that_are_missing_too_long_or_encoded() {
    let served = Served::start();
    let (host, origin) =
        (format!("Host: {}", served.host()), format!("Origin: http://{}", served.host()));
    for (length, status, named) in [
        ("X: y", 411, "Content-Length"),
        ("Content-Length: 1025", 413, "1024 bytes"),
        ("Content-Length: 99999999999999999999", 413, "1024 bytes"),
        ("Content-Length: -1", 400, "whole number"),
        ("Transfer-Encoding: chunked", 501, "encodings"),
        ("Content-Type: text/plain", 415, "application/x-www-form-urlencoded"),
    ] {
        let lines = ["POST /door HTTP/1.1", &host, &origin, length];
        assert_refused(&served, &head(&lines), status, named);
    }
    let mut long = head(&["POST /door HTTP/1.1", &host, &origin, "Content-Length: 1025"]);
    long.extend([b'a'; 1025]);
    assert_refused(&served, &long, 413, "1024 bytes");
    let lines = ["GET /state HTTP/1.1", &host, "Content-Length: 3"];
    assert_refused(&served, &head(&lines), 400, "no body");
    let lines = ["POST /door HTTP/1.1", &host, &origin, "Content-Length: 8", "Content-Length: 8"];
    assert_refused(&served, &head(&lines), 400, "twice");
}

#[test]
fn forms_that_are_wrong() {
    let served = Served::start();
    let before = served.state();
    for (path, body, named) in [
        ("/edit", "operation=trim&x=inf&y=0&within=1", "`x`"),
        ("/edit", "operation=trim&x=0&y=0", "`within` is missing"),
        ("/edit", "operation=trim&x=0&y=0&within=1&x=0", "`x` comes twice"),
        ("/edit", "operation=turn&x=0&y=0&within=1", "`operation` is `turn`"),
        ("/edit", "operation=trim&x=0&y=0&within=1&z=0", "`z` is no field"),
        ("/draw", "kind=line&x1=0&y1=0&x2=1&within=1", "`y2` is missing"),
        ("/radio", "loss=120&repeats=0&reordering=0", "`loss`"),
        ("/door", "open=%ff", "UTF-8"),
        ("/door", "open=%", "hexadecimal"),
        ("/door", "", "`open` is missing"),
        ("/send-again", "now=yes", "`now` is no field"),
        ("/new", "bridge=%22", "`bridge` is `\"`"),
        ("/door?open=yes", "open=yes", "Nothing is expected behind this path"),
    ] {
        let answer = served.post(path, body);
        assert_eq!(answer.status, 400, "{path} {body}");
        let sentence = answer.sentence();
        assert!(sentence.contains(named), "{path} {body}: {sentence}");
    }
    for path in ["/state?seen=-1", "/state?seen=1&seen=1", "/state?since=1", "/?a=b"] {
        let answer = served.get(path);
        assert_eq!(answer.status, 400, "{path}");
        answer.sentence();
    }
    assert_eq!(served.state(), before);
}

#[test]
fn a_body_in_bytes_that_are_no_text() {
    let served = Served::start();
    let (host, origin) =
        (format!("Host: {}", served.host()), format!("Origin: http://{}", served.host()));
    let mut request = head(&["POST /door HTTP/1.1", &host, &origin, "Content-Length: 6"]);
    request.extend(b"open=\xc3");
    assert_refused(&served, &request, 400, "UTF-8");
}

#[test]
fn more_connections_than_the_most() {
    let served = Served::start();
    let idle: Vec<TcpStream> = (0..32).map(|_| served.connect()).collect();
    let request = head(&["GET /state HTTP/1.1", &format!("Host: {}", served.host())]);
    assert_refused(&served, &request, 503, "Too many");
    drop(idle);
    served.wait_until_served(&request);
}

/// Five seconds for a whole request, however slowly its bytes come; other requests go on meanwhile.
#[test]
fn a_request_that_does_not_end() {
    let served = Served::start();
    let mut slow = served.connect();
    for byte in b"GET /" {
        slow.write_all(&[*byte]).expect("it listens");
        assert_eq!(served.get("/state").status, 200);
        std::thread::sleep(std::time::Duration::from_millis(100));
    }
    let answer = Answer::read(&mut slow);
    assert_eq!(answer.status, 408);
    assert!(answer.sentence().contains("5 seconds"));
}
