//! The hall in a browser: a server for this machine alone, and the one desk and wall behind it.

mod address;
mod air;
mod asked;
mod connections;
mod form;
mod hosted;
mod json;
mod marks;
mod member;
mod notice;
mod offer;
mod page;
mod request;
mod response;
mod routes;
mod session;
#[cfg(test)]
mod session_tests;
mod state;

use hosted::Hosted;
use std::io::{stdout, Write};
use std::net::{Ipv4Addr, TcpListener};

/// Serves until the process is ended, or says why it can't.
pub fn run(port: u16) -> Result<(), String> {
    let hosted = Hosted::open().map_err(|refusal| format!("the opening bridge gets {refusal}"))?;
    let listener = TcpListener::bind((Ipv4Addr::LOCALHOST, port))
        .map_err(|error| format!("port {port} of 127.0.0.1 is not to be had: {error}"))?;
    let address = listener.local_addr().map_err(|error| format!("the port is unknown: {error}"))?;
    let port = address.port();
    let mut out = stdout();
    writeln!(out, "hall: http://127.0.0.1:{port}/")
        .and_then(|()| out.flush())
        .map_err(|error| format!("the address could not be written: {error}"))?;
    connections::accept(&listener, hosted, port)
}
