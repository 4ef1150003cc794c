//! One question a datagram, on one socket: `server ADDRESS:PORT ORIGIN ZONEFILE`.
//!
//!   rustc -O --edition 2021 -C link-args="$(./authority --library)" examples/rust/server.rs
#[allow(dead_code)]
mod soarnef;

use soarnef::{Kind, Server};
use std::net::UdpSocket;
use std::time::{SystemTime, UNIX_EPOCH};

fn main() -> Result<(), Box<dyn std::error::Error>> {
    let words: Vec<String> = std::env::args().collect();
    let [_, address, origin, file] = &words[..] else {
        return Err("usage: server ADDRESS:PORT ORIGIN ZONEFILE".into());
    };
    let mut server = Server::new();
    server.add_zone(Kind::Primary, origin, &std::fs::read_to_string(file)?)?;
    let socket = UdpSocket::bind(address)?;
    let (mut message, mut reply) = ([0u8; 4096], vec![0u8; 65535]);
    loop {
        let (len, source) = socket.recv_from(&mut message)?;
        if len > 2 && message[2] & 0x80 != 0 {
            continue; // a reply
        }
        let now = SystemTime::now().duration_since(UNIX_EPOCH)?.as_secs();
        if let Ok(Some(reply)) = server.serve(&message[..len], source, false, now, &mut reply) {
            let _ = socket.send_to(reply, source);
        }
    }
}
