//! Each call of the Rust declarations once.
#[path = "../../examples/rust/soarnef.rs"]
mod soarnef;

use soarnef::{Blocklist, Kind, Network, Refused, Server};

const ZONE: &str = "example.com. 300 IN SOA ns.example.com. host.example.com. 1 2 3 4 5\nwww.example.com. 300 IN A 192.0.2.1\n";
const QUESTION: &[u8] = b"\x12\x34\x01\0\0\x01\0\0\0\0\0\0\x03www\x07example\x03com\0\0\x01\0\x01";

fn ask(server: &mut Server, source: &str) -> Result<Option<Vec<u8>>, Refused> {
    let mut reply = [0; 512];
    let found = server.serve(QUESTION, source.parse().unwrap(), false, 0, &mut reply)?;
    Ok(found.map(<[u8]>::to_vec))
}

/// The code of a reply and its last octet.
fn shown(server: &mut Server, source: &str) -> (u8, u8) {
    let reply = ask(server, source).unwrap().unwrap();
    (reply[3] & 15, *reply.last().unwrap())
}

fn main() {
    let mut server = Server::new();
    assert_eq!(server.add_zone(Kind::Secondary, "example.net.", ZONE), Err(Refused::Line(1, "line 1: OutsideZone".to_string())));
    assert_eq!(server.add_zone(Kind::Primary, "example.com", ZONE), Err(Refused::WrongName));
    assert_eq!(server.add_zone(Kind::Primary, "example.com.", ZONE), Ok(()));
    assert_eq!(shown(&mut server, "127.0.0.1:53"), (0, 1));
    assert_eq!(shown(&mut server, "[::1]:53"), (0, 1));
    assert_eq!(server.set_nsid(b"ns1"), Ok(()));
    assert_eq!(server.set_nsid(&[0; 65532]), Err(Refused::TooLong));
    let local = Network::new("127.0.0.0".parse().unwrap(), 8, true);
    let wrong = Network::new("::1".parse().unwrap(), 129, false);
    assert_eq!(server.set_access(&[local, wrong]), Err(Refused::WrongSetting));
    assert_eq!(server.set_access(&[local]), Ok(()));
    assert_eq!(shown(&mut server, "127.0.0.1:53"), (5, 1));
    assert_eq!(shown(&mut server, "[::1]:53"), (0, 1));
    assert_eq!(server.set_access(&[]), Ok(()));
    assert_eq!(server.remove("example.com."), Ok(()));
    assert_eq!(server.remove("example.com."), Err(Refused::NotFound));
    let settings = Blocklist { sinkhole_ipv4: [192, 0, 2, 99], ..Blocklist::default() };
    assert_eq!(server.add_blocklist(&settings, ".", "0.0.0.0 www.example.com\n", ""), Ok(()));
    assert_eq!(shown(&mut server, "127.0.0.1:53"), (0, 99));
    assert_eq!(server.serve(&QUESTION[..11], "127.0.0.1:53".parse().unwrap(), true, 0, &mut []), Ok(None));
    assert_eq!(server.serve(QUESTION, "127.0.0.1:53".parse().unwrap(), true, 0, &mut [0; 48]), Err(Refused::NoRoom));
}
