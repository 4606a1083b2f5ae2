//! `hall serve` as a process, and requests to it over a socket.

use crate::json::Value;
use std::io::{BufRead, BufReader, Read, Write};
use std::net::TcpStream;
use std::process::{Child, Command, Stdio};
use std::time::{Duration, Instant};

pub struct Served {
    process: Child,
    pub port: u16,
}

pub struct Answer {
    pub status: u16,
    pub head: String,
    pub body: Vec<u8>,
}

pub fn hall() -> Command {
    Command::new(env!("CARGO_BIN_EXE_hall"))
}

impl Served {
    /// Starts it on a port of the system's choice, with an input that ends at once.
    pub fn start() -> Served {
        let mut process = hall()
            .args(["serve"])
            .stdin(Stdio::null())
            .stdout(Stdio::piped())
            .spawn()
            .expect("the program starts");
        let mut line = String::new();
        let out = process.stdout.take().expect("its output is piped");
        BufReader::new(out).read_line(&mut line).expect("it writes its address");
        let port = line.strip_prefix("hall: http://127.0.0.1:").and_then(|l| l.strip_suffix("/\n"));
        let port = port.unwrap_or_else(|| panic!("{line:?} is no address"));
        Served { process, port: port.parse().expect("a port") }
    }

    pub fn host(&self) -> String {
        format!("127.0.0.1:{}", self.port)
    }

    pub fn connect(&self) -> TcpStream {
        let stream = TcpStream::connect(("127.0.0.1", self.port)).expect("the server listens");
        stream.set_read_timeout(Some(Duration::from_secs(10))).expect("a timeout");
        stream
    }

    /// Sends bytes and reads the answer.
    pub fn send(&self, bytes: &[u8]) -> Answer {
        let mut stream = self.connect();
        // A server that refuses early may close before it has read all.
        let _ = stream.write_all(bytes);
        Answer::read(&mut stream)
    }

    pub fn get(&self, path: &str) -> Answer {
        self.send(format!("GET {path} HTTP/1.1\r\nHost: {}\r\n\r\n", self.host()).as_bytes())
    }

    /// A POST as the page sends it.
    pub fn post(&self, path: &str, body: &str) -> Answer {
        let (host, size) = (self.host(), body.len());
        let head = format!(
            "POST {path} HTTP/1.1\r\nHost: {host}\r\nOrigin: http://{host}\r\nContent-Length: {size}\r\n\
             Content-Type: application/x-www-form-urlencoded;charset=UTF-8\r\n\r\n"
        );
        self.send((head + body).as_bytes())
    }

    /// A POST that is accepted, and the state that it answers.
    pub fn ask(&self, path: &str, body: &str) -> Value {
        let answer = self.post(path, body);
        assert_eq!(answer.status, 200, "{path} {body}: {}", answer.text());
        answer.json()
    }

    pub fn state(&self) -> Value {
        let answer = self.get("/state");
        assert_eq!(answer.status, 200);
        answer.json()
    }

    /// Waits until a request is answered again.
    pub fn wait_until_served(&self, request: &[u8]) {
        let until = Instant::now() + Duration::from_secs(10);
        while self.send(request).status != 200 {
            assert!(Instant::now() < until, "the places of closed connections are free again");
            std::thread::sleep(Duration::from_millis(20));
        }
    }

    /// Waits until the state is as expected.
    pub fn wait_for(&self, expected: impl Fn(&Value) -> bool) -> Value {
        let until = Instant::now() + Duration::from_secs(20);
        loop {
            let state = self.state();
            if expected(&state) {
                return state;
            }
            assert!(Instant::now() < until, "{state:?}");
            std::thread::sleep(Duration::from_millis(20));
        }
    }
}

impl Drop for Served {
    fn drop(&mut self) {
        let _ = self.process.kill();
        let _ = self.process.wait();
    }
}

impl Answer {
    pub fn read(stream: &mut TcpStream) -> Answer {
        let mut bytes = Vec::new();
        stream.read_to_end(&mut bytes).expect("an answer, and the end of the connection");
        let end = bytes.windows(4).position(|four| four == b"\r\n\r\n").expect("a head");
        let body = bytes.split_off(end + 4);
        let head = String::from_utf8(bytes).expect("a head in ASCII");
        let status = head.split(' ').nth(1).and_then(|status| status.parse().ok());
        let answer = Answer { status: status.expect("a status"), head, body };
        // The answer to a HEAD tells the length of the body that it leaves out.
        if let Some(size) = answer.header("Content-Length").filter(|_| !answer.body.is_empty()) {
            assert_eq!(size, answer.body.len().to_string());
        }
        answer
    }

    pub fn header(&self, name: &str) -> Option<&str> {
        let mut lines = self.head.lines();
        lines.find_map(|line| line.strip_prefix(name)?.strip_prefix(": "))
    }

    pub fn text(&self) -> &str {
        std::str::from_utf8(&self.body).expect("a body in UTF-8")
    }

    pub fn json(&self) -> Value {
        assert_eq!(self.header("Content-Type"), Some("application/json; charset=utf-8"));
        Value::parse(self.text())
    }

    /// The sentence of a refusal, which ends as one does.
    pub fn sentence(&self) -> String {
        let error = self.json().text("error").to_string();
        assert!(error.ends_with('.') && error.contains(' '), "{error}");
        error
    }
}
