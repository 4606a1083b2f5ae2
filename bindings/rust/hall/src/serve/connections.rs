//! Connections: how many at once, for how long, and one request on each.

use super::address::{check_host, check_origin};
use super::hosted::Hosted;
use super::request::Head;
use super::response::Response;
use super::routes;
use std::io::{self, Read};
use std::net::{IpAddr, Shutdown, TcpListener, TcpStream};
use std::panic::{catch_unwind, AssertUnwindSafe};
use std::sync::atomic::{AtomicUsize, Ordering};
use std::sync::Arc;
use std::thread;
use std::time::{Duration, Instant};

/// How many requests are answered at once; those beyond get 503, and beyond as many again nothing.
const MOST: usize = 32;
/// By when a request must have come, and how long the writing of its answer may stand still.
const PATIENCE: Duration = Duration::from_secs(5);
/// How long, and how much, is read of a request that was refused early, so that its sender gets the answer.
const LINGER: Duration = Duration::from_millis(500);
const MOST_LINGERING: usize = 64 * 1024;
/// What the accepting waits after an error, such as too many open files.
const PAUSE: Duration = Duration::from_millis(50);

struct Server {
    hosted: Hosted,
    port: u16,
    open: AtomicUsize,
}

/// Answers requests until the process is ended.
pub fn accept(listener: &TcpListener, hosted: Hosted, port: u16) -> ! {
    let server = Arc::new(Server { hosted, port, open: AtomicUsize::new(0) });
    loop {
        match listener.accept() {
            Ok((stream, peer)) => hand_over(&server, stream, peer.ip()),
            Err(_) => thread::sleep(PAUSE),
        }
    }
}

fn hand_over(server: &Arc<Server>, stream: TcpStream, peer: IpAddr) {
    let place = Place::take(server);
    if place.number > 2 * MOST {
        return;
    }
    // Where no thread is to be had, the connection is closed with what was to run in it.
    let _ = thread::Builder::new().spawn(move || serve(&place, &stream, peer));
}

/// A connection's place among those that are open; it is given back when dropped.
struct Place {
    server: Arc<Server>,
    number: usize,
}

impl Place {
    fn take(server: &Arc<Server>) -> Place {
        let number = server.open.fetch_add(1, Ordering::SeqCst) + 1;
        Place { server: Arc::clone(server), number }
    }
}

impl Drop for Place {
    fn drop(&mut self) {
        self.server.open.fetch_sub(1, Ordering::SeqCst);
    }
}

/// Reads one request, answers it and closes. A connection that fails is the other side's loss alone.
fn serve(place: &Place, stream: &TcpStream, peer: IpAddr) {
    let mut timed = Timed { stream, until: Instant::now() + PATIENCE };
    let (response, head_alone) = if !peer.is_loopback() {
        (Response::error(403, "Only this machine is served."), false)
    } else if place.number > MOST {
        (Response::error(503, "Too many connections are open: try again."), false)
    } else {
        match Head::read(&mut timed) {
            Ok(None) => return,
            Ok(Some(head)) => {
                let answered = || answer(&place.server, &head, &mut timed);
                let answered = catch_unwind(AssertUnwindSafe(answered));
                let failed = |_| Response::error(500, "The request failed; nothing has changed.");
                (answered.unwrap_or_else(failed), head.method == "HEAD")
            }
            Err(response) => (response, false),
        }
    };
    let _ = write_and_close(stream, &response, head_alone);
}

fn answer(server: &Server, head: &Head, from: &mut impl Read) -> Response {
    answer_checked(server, head, from).unwrap_or_else(|refused| refused)
}

fn answer_checked(
    server: &Server,
    head: &Head,
    from: &mut impl Read,
) -> Result<Response, Response> {
    check_host(head, server.port)?;
    let expected = routes::method(&head.path);
    match (head.method.as_str(), expected) {
        ("GET" | "POST", None) => Err(routes::no_such_path()),
        (_, None) => Err(Response::not_allowed("GET, POST")),
        (method, Some(expected)) if method != expected => Err(Response::not_allowed(expected)),
        ("GET", _) => {
            head.expect_no_body()?;
            Ok(routes::get(&server.hosted, &head.path, head.query.as_deref()))
        }
        _ => {
            check_origin(head)?;
            head.expect_form()?;
            let body = head.read_body(from)?;
            Ok(routes::post(&server.hosted, &head.path, head.query.as_deref(), &body))
        }
    }
}

fn write_and_close(stream: &TcpStream, response: &Response, head_alone: bool) -> io::Result<()> {
    stream.set_write_timeout(Some(PATIENCE))?;
    response.write(&mut &*stream, head_alone)?;
    stream.shutdown(Shutdown::Write)?;
    let mut rest = Timed { stream, until: Instant::now() + LINGER };
    let mut left = MOST_LINGERING;
    let mut part = [0; 1024];
    while left > 0 {
        match rest.read(&mut part)? {
            0 => break,
            size => left = left.saturating_sub(size),
        }
    }
    Ok(())
}

/// A socket whose reading ends by one moment, however slowly bytes come.
struct Timed<'s> {
    stream: &'s TcpStream,
    until: Instant,
}

impl Read for Timed<'_> {
    fn read(&mut self, into: &mut [u8]) -> io::Result<usize> {
        let left = self.until.saturating_duration_since(Instant::now());
        if left.is_zero() {
            return Err(io::ErrorKind::TimedOut.into());
        }
        self.stream.set_read_timeout(Some(left))?;
        (&mut &*self.stream).read(into)
    }
}
