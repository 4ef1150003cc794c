//! Soarnef's proved core from Rust: safe functions over the C border (`examples/c/soarnef.h`, which says what each call does).

use std::fmt;
use std::marker::PhantomData;
use std::mem::MaybeUninit;
use std::net::{IpAddr, SocketAddr};

unsafe extern "C" {
    fn soarnef_size() -> usize;
    fn soarnef_open(at: *mut u8);
    fn soarnef_add_zone(at: *mut u8, kind: u8, origin: *const u8, origin_len: usize, text: *const u8, text_len: usize, refusal: *mut u8, refusal_len: usize) -> i64;
    fn soarnef_add_blocklist(at: *mut u8, settings: *const Blocklist, name: *const u8, name_len: usize, text: *const u8, text_len: usize, message: *const u8, message_len: usize) -> i64;
    fn soarnef_remove(at: *mut u8, name: *const u8, name_len: usize) -> i64;
    fn soarnef_set_access(at: *mut u8, networks: *const Network, count: usize) -> i64;
    fn soarnef_set_nsid(at: *mut u8, octets: *const u8, len: usize) -> i64;
    fn soarnef_serve(at: *mut u8, message: *const u8, message_len: usize, address: *const u8, address_len: usize, port: u16, stream: bool, now: u64, reply: *mut u8, reply_len: usize) -> i64;
    fn soarnef_close(at: *mut u8);
}

/// What this server is to a zone.
#[derive(Clone, Copy, Debug)]
#[repr(u8)]
pub enum Kind { Primary = 0, Secondary = 1, External = 2 }

/// The settings of a list of blocked names.
#[repr(C)]
#[derive(Clone, Copy, Debug)]
pub struct Blocklist {
    pub ttl: u32,
    /// 0 and 2: other handlers' answers stay; 1: the list's replaces them.
    pub action: u8,
    pub min_wildcard_depth: u8,
    pub wildcard_match: bool,
    pub sinkhole_ipv4: [u8; 4],
    pub sinkhole_ipv6: [u8; 16],
}

impl Default for Blocklist {
    fn default() -> Blocklist {
        Blocklist { ttl: 86_400, action: 0, min_wildcard_depth: 2, wildcard_match: true, sinkhole_ipv4: [0; 4], sinkhole_ipv6: [0; 16] }
    }
}

/// A network whose addresses may ask, or may not.
#[repr(C)]
#[derive(Clone, Copy, Debug)]
pub struct Network { address: [u8; 16], address_len: u8, prefix_len: u8, denied: bool }

impl Network {
    pub fn new(address: IpAddr, prefix_len: u8, denied: bool) -> Network {
        let mut octets = [0; 16];
        let address_len = match address {
            IpAddr::V4(ip) => { octets[..4].copy_from_slice(&ip.octets()); 4 }
            IpAddr::V6(ip) => { octets = ip.octets(); 16 }
        };
        Network { address: octets, address_len, prefix_len, denied }
    }
}

/// Why a call did nothing.
#[derive(Clone, Debug, PartialEq, Eq)]
pub enum Refused {
    OutOfMemory, NoRoom, WrongAddress, WrongName, WrongText, WrongSetting, TooLong, NotFound,
    /// The line of a zone's text, and `line N: CAUSE`.
    Line(i64, String),
}

impl fmt::Display for Refused {
    fn fmt(&self, out: &mut fmt::Formatter<'_>) -> fmt::Result {
        match self {
            Refused::Line(_, why) => out.write_str(why),
            other => write!(out, "{other:?}"),
        }
    }
}

impl std::error::Error for Refused {}

fn refused(code: i64) -> Refused {
    match code {
        -1 => Refused::OutOfMemory,
        -2 => Refused::NoRoom,
        -3 => Refused::WrongAddress,
        -4 => Refused::WrongName,
        -5 => Refused::WrongText,
        -6 => Refused::WrongSetting,
        -7 => Refused::TooLong,
        -8 => Refused::NotFound,
        line => Refused::Line(line, format!("line {line}")),
    }
}

fn done(code: i64) -> Result<(), Refused> {
    if code == 0 { Ok(()) } else { Err(refused(code)) }
}

/// A server of zones and lists of blocked names. It stays on the thread that made it.
pub struct Server {
    memory: Box<[MaybeUninit<u128>]>,
    here: PhantomData<*mut u8>,
}

// SAFETY, of each call below: `new` opened the server, `drop` alone closes it, `&mut self` is one call at a time on one
// thread, and slices, references, bools and `Kind` are Rust's own.
impl Server {
    #[allow(clippy::new_without_default)]
    pub fn new() -> Server {
        let mut memory = Box::new_uninit_slice(unsafe { soarnef_size() }.div_ceil(16));
        unsafe { soarnef_open(memory.as_mut_ptr().cast()) };
        Server { memory, here: PhantomData }
    }

    fn at(&mut self) -> *mut u8 {
        self.memory.as_mut_ptr().cast()
    }

    pub fn add_zone(&mut self, kind: Kind, origin: &str, text: &str) -> Result<(), Refused> {
        let mut why = [0u8; 64];
        let at = self.at();
        let code = unsafe { soarnef_add_zone(at, kind as u8, origin.as_ptr(), origin.len(), text.as_ptr(), text.len(), why.as_mut_ptr(), why.len()) };
        done(code).map_err(|refused| match refused {
            Refused::Line(line, _) => Refused::Line(line, String::from_utf8_lossy(&why).trim_end_matches('\0').to_string()),
            other => other,
        })
    }

    pub fn add_blocklist(&mut self, settings: &Blocklist, name: &str, text: &str, message: &str) -> Result<(), Refused> {
        let at = self.at();
        done(unsafe { soarnef_add_blocklist(at, settings, name.as_ptr(), name.len(), text.as_ptr(), text.len(), message.as_ptr(), message.len()) })
    }

    pub fn remove(&mut self, name: &str) -> Result<(), Refused> {
        let at = self.at();
        done(unsafe { soarnef_remove(at, name.as_ptr(), name.len()) })
    }

    pub fn set_access(&mut self, networks: &[Network]) -> Result<(), Refused> {
        let at = self.at();
        done(unsafe { soarnef_set_access(at, networks.as_ptr(), networks.len()) })
    }

    pub fn set_nsid(&mut self, octets: &[u8]) -> Result<(), Refused> {
        let at = self.at();
        done(unsafe { soarnef_set_nsid(at, octets.as_ptr(), octets.len()) })
    }

    /// The reply at the front of `reply`, or None where the message gets none.
    pub fn serve<'r>(&mut self, message: &[u8], source: SocketAddr, stream: bool, now: u64, reply: &'r mut [u8]) -> Result<Option<&'r [u8]>, Refused> {
        let (v4, v6);
        let address: &[u8] = match source.ip() {
            IpAddr::V4(ip) => { v4 = ip.octets(); &v4 }
            IpAddr::V6(ip) => { v6 = ip.octets(); &v6 }
        };
        let at = self.at();
        let count = unsafe { soarnef_serve(at, message.as_ptr(), message.len(), address.as_ptr(), address.len(), source.port(), stream, now, reply.as_mut_ptr(), reply.len()) };
        match usize::try_from(count) {
            Ok(0) => Ok(None),
            Ok(count) => Ok(Some(&reply[..count])),
            Err(_) => Err(refused(count)),
        }
    }
}

impl Drop for Server {
    fn drop(&mut self) {
        unsafe { soarnef_close(self.at()) };
    }
}
