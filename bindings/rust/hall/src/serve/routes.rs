//! Which path answers what.

use super::asked::Asked;
use super::form::Form;
use super::hosted::Hosted;
use super::page;
use super::response::Response;
use super::session::Session;
use super::state;

/// The method that a path takes, where there is such a path.
pub fn method(path: &str) -> Option<&'static str> {
    match path {
        "/state" | "/image/desk" | "/image/wall" => Some("GET"),
        "/edit" | "/draw" | "/radio" | "/door" | "/send-again" | "/new" => Some("POST"),
        file => page::file(file).map(|_| "GET"),
    }
}

pub fn no_such_path() -> Response {
    Response::error(404, "There is nothing at this path.")
}

/// Answers a GET.
pub fn get(hosted: &Hosted, path: &str, query: Option<&str>) -> Response {
    let fields: &[&str] = if path == "/state" { &["seen"] } else { &[] };
    let form = match Form::parse(query.unwrap_or_default().as_bytes(), fields) {
        Ok(form) => form,
        Err(sentence) => return Response::error(400, sentence),
    };
    match path {
        "/state" => state_unless_seen(hosted, &form),
        "/image/desk" => image(hosted, |session| session.desk.image().to_vec()),
        "/image/wall" => image(hosted, |session| session.wall.image().to_vec()),
        file => page::file(file).unwrap_or_else(no_such_path),
    }
}

fn image(hosted: &Hosted, of: impl Fn(&Session) -> Vec<u8>) -> Response {
    let bytes = hosted.with(|session, now| {
        session.advance(now);
        of(session)
    });
    Response::new("application/octet-stream", bytes)
}

fn state_unless_seen(hosted: &Hosted, form: &Form) -> Response {
    let seen = match form.get("seen").map(|_| form.whole("seen")).transpose() {
        Ok(seen) => seen,
        Err(sentence) => return Response::error(400, sentence),
    };
    hosted.with(|session, now| {
        session.advance(now);
        match seen == Some(session.revision) {
            true => Response::empty(),
            false => Response::json(&state::of(session, hosted.offered())),
        }
    })
}

/// Answers a POST with the state after it.
pub fn post(hosted: &Hosted, path: &str, query: Option<&str>, body: &[u8]) -> Response {
    if query.is_some() {
        return Response::error(400, "Nothing is expected behind this path.");
    }
    let offered = hosted.offered();
    match Asked::read(path, body, offered) {
        Ok(asked) => hosted.with(|session, now| {
            asked.of(session, offered, now);
            Response::json(&state::of(session, offered))
        }),
        Err(sentence) => Response::error(400, sentence),
    }
}
