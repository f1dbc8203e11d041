//! The least that a server can do: it reads a request's head, and answers each with the same bytes, those of a balance
//! of 0. It parses nothing, and looks nothing up. So it shows what a connection costs, whichever server is used.
//! Build: rustc -O floor_serve.rs. Usage: floor_serve PORT
use std::io::{Read, Write};
use std::net::TcpListener;

const REPLY: &[u8] = b"HTTP/1.1 200 OK\r\nContent-Type: application/json\r\nContent-Length: 37\r\nConnection: close\r\n\r\n\
    {\"account\":\"GENCO-P\",\"moved_pence\":0}";

fn main() {
    let port: u16 = std::env::args().nth(1).unwrap().parse().unwrap();
    let listener = TcpListener::bind(("127.0.0.1", port)).unwrap();
    println!("listening {}", listener.local_addr().unwrap());
    let mut buffer = [0u8; 8192];
    for stream in listener.incoming() {
        let mut stream = stream.unwrap();
        let mut read = 0;
        while !buffer[..read].ends_with(b"\r\n\r\n") {
            match stream.read(&mut buffer[read..]) {
                Ok(count) if count > 0 => read += count,
                _ => break,
            }
        }
        let _ = stream.write_all(REPLY);
    }
}
