//! Sends the bytes of a file TIMES times, each time over a new connection, one after the other. It prints the body of
//! the last reply, and tells on standard error how many milliseconds all of them took.
//! Build: rustc -O client_serve.rs. Usage: client_serve PORT TIMES FILE
use std::io::{Read, Write};
use std::net::TcpStream;
use std::time::Instant;

fn main() {
    let words: Vec<String> = std::env::args().collect();
    let port: u16 = words[1].parse().unwrap();
    let times: u32 = words[2].parse().unwrap();
    let request = std::fs::read(&words[3]).unwrap();
    let mut reply = Vec::new();
    let began = Instant::now();
    for _ in 0..times {
        let mut client = TcpStream::connect(("127.0.0.1", port)).unwrap();
        client.write_all(&request).unwrap();
        reply.clear();
        client.read_to_end(&mut reply).unwrap();
    }
    let taken = began.elapsed();
    assert!(reply.starts_with(b"HTTP/1.1 200 "), "refused: {}", String::from_utf8_lossy(&reply));
    let body = 4 + reply.windows(4).position(|four| four == b"\r\n\r\n").unwrap();
    std::io::stdout().write_all(&reply[body..]).unwrap();
    eprint!("{}", taken.as_secs_f64() * 1e3);
}
