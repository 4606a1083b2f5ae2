//! Each path, as the page uses it.

use crate::client::{hall, Served};
use crate::json::Value;
use std::net::TcpListener;

const SURE: &str = "loss=0&repeats=0&reordering=0";
/// The hanger in the middle of the opening bridge, where it sticks out over the arch.
const TRIM: &str = "operation=trim&x=60&y=45&within=1";

#[test]
fn the_page_and_its_files_have_their_types_and_headers() {
    let served = Served::start();
    for (path, content_type) in [
        ("/", "text/html; charset=utf-8"),
        ("/page.css", "text/css; charset=utf-8"),
        ("/page.js", "text/javascript; charset=utf-8"),
        ("/icon.svg", "image/svg+xml"),
        ("/state", "application/json; charset=utf-8"),
        ("/image/desk", "application/octet-stream"),
        ("/image/wall", "application/octet-stream"),
    ] {
        let answer = served.get(path);
        assert_eq!(answer.status, 200, "{path}");
        assert_eq!(answer.header("Content-Type"), Some(content_type), "{path}");
        assert_eq!(answer.header("X-Content-Type-Options"), Some("nosniff"));
        assert_eq!(answer.header("Cache-Control"), Some("no-store"));
        assert_eq!(answer.header("Referrer-Policy"), Some("no-referrer"));
        let policy = answer.header("Content-Security-Policy").expect("a policy");
        assert!(policy.starts_with("default-src 'self';"), "{policy}");
        assert!(!answer.body.is_empty(), "{path}");
    }
}

#[test]
fn the_state_has_all_its_fields() {
    let served = Served::start();
    let state = served.state();
    for (name, expected) in [("image", 1.0), ("message", 2.0), ("interface", 2.0)] {
        assert_eq!(state.at("formats").number(name), expected);
    }
    assert!(state.text("formats.library").starts_with("2."));
    assert_eq!(state.list("bridges")[0].text("name"), "opening");
    assert!(state.number("view.left") < state.number("view.right"));
    assert!(state.number("view.bottom") < state.number("view.top"));
    for device in ["desk", "wall"] {
        let device = state.at(device);
        assert_eq!((device.number("count"), device.text("mark").len()), (0.0, 16));
        assert_eq!(device.at("highlight"), &Value::Null);
        assert!(device.number("bytes") > 1000.0 && device.list("away").is_empty());
        let kinds: Vec<&str> = device.list("curves").iter().map(|one| one.text("kind")).collect();
        for (kind, stroke, numbers) in
            [("line", "path", 2), ("arc", "arc", 5), ("circle", "circle", 3)]
        {
            let place = kinds.iter().position(|one| *one == kind).expect(kind);
            let stroke = device.list("curves")[place].at("stroke").list(stroke);
            assert_eq!(stroke.len(), numbers, "{kind}");
        }
        let point = &device.list("points")[0];
        assert!(point.number("id") > 0.0 && !point.is("fixed"));
    }
    assert_eq!((state.text("wall.door"), state.is("wall.mark_differs")), ("open", false));
    assert_eq!((state.is("alike"), state.number("behind")), (true, 0.0));
    for name in ["on_the_air", "sent", "lost", "repeated", "overtaken", "missed"] {
        assert_eq!(state.at("radio").number(name), 0.0, "{name}");
    }
    for name in ["applied", "old", "ahead", "foreign", "started_again"] {
        assert_eq!(state.at("wall_tally").number(name), 0.0, "{name}");
    }
    assert_eq!(state.at("notice"), &Value::Null);
}

#[test]
fn an_edit_comes_to_the_wall_by_its_message() {
    let served = Served::start();
    let radio = served.ask("/radio", SURE);
    assert_eq!(radio.number("radio.loss"), 0.0);
    let edited = served.ask("/edit", TRIM);
    assert_eq!(edited.text("notice.kind"), "accepted");
    assert_eq!((edited.is("alike"), edited.number("behind")), (false, 1.0));
    assert_eq!(edited.number("radio.on_the_air"), 1.0);
    assert_eq!(edited.list("desk.away").len(), 1);

    let level = served.wait_for(|state| state.is("alike"));
    assert_eq!(level.list("wall.away"), edited.list("desk.away"));
    assert_eq!(level.number("wall_tally.applied"), 1.0);
    assert_eq!(served.get("/image/desk").body, served.get("/image/wall").body);
    assert_eq!(level.number("desk.bytes") as usize, served.get("/image/desk").body.len());

    let revision = level.number("revision");
    let seen = served.get(&format!("/state?seen={revision}"));
    assert_eq!((seen.status, seen.body.len()), (204, 0));
    assert_eq!(served.get(&format!("/state?seen={}", revision - 1.0)).status, 200);
}

#[test]
fn a_refusal_names_its_relation_and_highlights_it() {
    let served = Served::start();
    let state = served.ask("/edit", "operation=extend&x=128&y=33&within=1");
    assert_eq!((state.text("notice.kind"), state.number("notice.number")), ("refused", 19.0));
    assert_eq!(state.text("notice.title"), "Refused: 19");
    assert_eq!(state.text("notice.text"), "A relation would not be met any more.");
    assert_eq!(state.text("notice.relation"), state.text("desk.highlight.text"));
    assert_eq!(state.list("desk.highlight.curves").len(), 1);
    let state = served.ask("/edit", "operation=extend&x=60&y=100&within=1");
    assert_eq!(state.text("notice.text"), "No member is there.");
    assert_eq!(state.number("notice.serial"), 2.0);
}

#[test]
fn the_door_and_what_is_sent_again() {
    let served = Served::start();
    served.ask("/radio", SURE);
    assert_eq!(served.ask("/door", "open=no").text("wall.door"), "closed");
    served.ask("/edit", TRIM);
    served.wait_for(|state| state.number("radio.missed") == 1.0);
    assert_eq!(served.ask("/door", "open=yes").text("wall.door"), "open");
    assert_eq!(served.ask("/send-again", "").text("notice.title"), "Sent again");
    served.wait_for(|state| state.is("alike"));

    served.ask("/door", "open=no");
    let state = served.ask("/new", "bridge=free-arch");
    assert!(state.is("wall.mark_differs"));
    let kinds = state.list("desk.curves").iter().map(|one| one.text("kind").to_string());
    let kinds: Vec<String> = kinds.collect();
    assert!(kinds.contains(&"bezier".into()) && kinds.contains(&"conic".into()));
    assert_eq!(served.ask("/send-again", "").text("notice.title"), "Nothing sent");
    served.ask("/door", "open=yes");
    let state = served.ask("/send-again", "");
    assert!(state.is("alike") && state.number("wall_tally.started_again") == 1.0);
}

#[test]
fn members_are_drawn() {
    let served = Served::start();
    let begun = served.ask("/new", "bridge=empty");
    assert_eq!(begun.list("desk.curves").len(), 0);
    for (body, kind, curves) in [
        ("kind=line&x1=0&y1=0&x2=30&y2=0&within=1", "line", 1),
        ("kind=circle&x1=10&y1=10&x2=10&y2=15&within=1", "circle", 2),
        ("kind=arc&x1=0&y1=0&x2=30&y2=0&x3=15&y3=10&within=1", "arc", 3),
    ] {
        let state = served.ask("/draw", body);
        assert_eq!(state.text("notice.kind"), "accepted", "{body}");
        let drawn = state.list("desk.curves");
        assert_eq!((drawn.len(), drawn[curves - 1].text("kind")), (curves, kind));
        assert!(state.is("alike") && state.text("desk.mark") != begun.text("desk.mark"));
    }
    let state = served.ask("/draw", "kind=line&x1=0&y1=0.2&x2=0.2&y2=0&within=1");
    assert_eq!(state.text("notice.text"), "A line needs two different ends.");
    assert_eq!(state.list("desk.curves").len(), 3);
}

#[test]
fn all_pages_have_one_hall() {
    let served = Served::start();
    std::thread::scope(|scope| {
        for page in 0..8 {
            let body = format!("operation=split&x={}&y=20&within=1", 110 + page);
            let served = &served;
            scope.spawn(move || served.ask("/edit", &body));
        }
    });
    assert_eq!(served.state().number("desk.count"), 8.0);
}

#[test]
fn a_port_that_is_not_to_be_had_gets_a_sentence() {
    let taken = TcpListener::bind("127.0.0.1:0").expect("a port");
    let port = taken.local_addr().expect("its address").port().to_string();
    for (arguments, named) in [
        (vec!["serve", "--port", &port], format!("port {port}")),
        (vec!["serve", "--port", "many"], "`many` is no port".to_string()),
        (vec!["serve", "--port", "65536"], "`65536` is no port".to_string()),
        (vec!["swerve"], "`swerve` is neither".to_string()),
    ] {
        let ended = hall().args(&arguments).output().expect("the program starts");
        let told = String::from_utf8(ended.stderr).expect("a sentence");
        assert_eq!(ended.status.code(), Some(2), "{arguments:?}");
        assert!(told.starts_with("hall: ") && told.contains(&named), "{told}");
        assert!(ended.stdout.is_empty());
    }
    let help = hall().arg("--help").output().expect("the program starts");
    assert!(help.status.success() && help.stdout.starts_with(b"hall [simulate]"));
}
