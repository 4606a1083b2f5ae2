//! The files of the page, which are part of the program: nothing is read from the file system.

use super::response::Response;

/// Path, type and text of each.
const FILES: [(&str, &str, &str); 9] = [
    ("/", HTML, include_str!("../../page/index.html")),
    ("/page.css", CSS, include_str!("../../page/page.css")),
    ("/page.js", SCRIPT, include_str!("../../page/page.js")),
    ("/air.js", SCRIPT, include_str!("../../page/air.js")),
    ("/geometry.js", SCRIPT, include_str!("../../page/geometry.js")),
    ("/panel.js", SCRIPT, include_str!("../../page/panel.js")),
    ("/pointer.js", SCRIPT, include_str!("../../page/pointer.js")),
    ("/server.js", SCRIPT, include_str!("../../page/server.js")),
    ("/icon.svg", "image/svg+xml", include_str!("icon.svg")),
];

const HTML: &str = "text/html; charset=utf-8";
const CSS: &str = "text/css; charset=utf-8";
const SCRIPT: &str = "text/javascript; charset=utf-8";

/// The file at a path, where there is one.
pub fn file(path: &str) -> Option<Response> {
    let found = FILES.iter().find(|(at, ..)| *at == path);
    found.map(|(_, content_type, text)| Response::new(content_type, *text))
}

#[cfg(test)]
mod tests {
    use super::*;

    /// What the page's files name in quotes and begin by a slash or `./` are files of the page too.
    #[test]
    fn the_page_has_all_files_that_it_names() {
        let mut named = 0;
        for (path, _, text) in FILES.iter().filter(|(_, kind, _)| [HTML, SCRIPT].contains(kind)) {
            let quoted = text.split('"').skip(1).step_by(2);
            for name in quoted.filter(|name| name.ends_with(".js") || name.ends_with(".css")) {
                let at = name.strip_prefix('.').unwrap_or(name);
                assert!(file(at).is_some(), "{path} names {name}");
                named += 1;
            }
        }
        assert!(named >= FILES.len() - 2, "each file but the page and its icon is named");
    }
}
