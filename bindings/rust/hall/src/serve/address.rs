//! To whom a request is addressed, and from which page it comes: other sites' pages, which a browser on this
//! machine may show too, are refused.

use super::request::Head;
use super::response::Response;

/// Fails unless the request is addressed to this server by one of its own names.
pub fn check_host(head: &Head, port: u16) -> Result<(), Response> {
    match head.header("host")? {
        Some(host) if hosts(port).contains(&host.to_string()) => Ok(()),
        _ => Err(Response::error(
            403,
            format!(
                "The Host is not this server's: 127.0.0.1:{port} or localhost:{port} is expected."
            ),
        )),
    }
}

/// Fails unless the request comes from this server's own page, under the name by which it is addressed.
pub fn check_origin(head: &Head) -> Result<(), Response> {
    let own = head.header("host")?.map(|host| format!("http://{host}"));
    match (head.header("origin")?, own) {
        (Some(origin), Some(own)) if origin == own => Ok(()),
        _ => Err(Response::error(403, "The Origin is not this server's own page.")),
    }
}

/// A browser leaves out the port that is HTTP's own.
fn hosts(port: u16) -> Vec<String> {
    let names = ["127.0.0.1", "localhost"];
    let mut hosts: Vec<String> = names.iter().map(|name| format!("{name}:{port}")).collect();
    if port == 80 {
        hosts.extend(names.map(String::from));
    }
    hosts
}

#[cfg(test)]
mod tests {
    use super::*;

    fn head(headers: &str) -> Head {
        let text = format!("POST /door HTTP/1.1\r\n{headers}\r\n");
        Head::read(&mut text.as_bytes()).expect("a good head").expect("a request")
    }

    fn host(value: &str, port: u16) -> bool {
        check_host(&head(&format!("Host: {value}\r\n")), port).is_ok()
    }

    #[test]
    fn only_the_servers_own_names_are_taken() {
        assert!(host("127.0.0.1:8080", 8080) && host("localhost:8080", 8080));
        for other in
            ["127.0.0.1", "127.0.0.1:80", "localhost", "example.org:8080", "[::1]:8080", ""]
        {
            assert!(!host(other, 8080), "{other}");
        }
        assert!(host("127.0.0.1", 80) && host("localhost:80", 80));
        assert_eq!(check_host(&head(""), 80).expect_err("no host").status, 403);
        let twice = check_host(&head("Host: localhost:80\r\nHost: localhost:80\r\n"), 80);
        assert_eq!(twice.expect_err("two hosts").status, 400);
    }

    #[test]
    fn only_the_servers_own_page_is_taken() {
        let with = |origin: &str| head(&format!("Host: localhost:80\r\n{origin}"));
        assert_eq!(check_origin(&with("Origin: http://localhost:80\r\n")), Ok(()));
        for origin in [
            "",
            "Origin: null\r\n",
            "Origin: http://127.0.0.1:80\r\n",
            "Origin: https://localhost:80\r\n",
        ] {
            assert_eq!(check_origin(&with(origin)).expect_err(origin).status, 403);
        }
    }
}
