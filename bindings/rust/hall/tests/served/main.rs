//! `hall serve` as a process: each path, and each refusal, over a socket.

mod client;
mod json;
mod paths;
mod refusals;
