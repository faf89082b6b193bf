//! A call over UDP from Rust: a server in a thread of its own, which answers each request by its bytes in reverse, and a client. Each
//! thread has a host of its own. With DIR, where `tools/install-library` put the library:
//!
//!     rustc --edition 2021 -O examples/call.rs -L DIR/lib -o call
//!     ./call [TEXT]       prints what the server is asked and what the client gets
use std::net::UdpSocket;
use std::time::{Duration, Instant};

/// What the header declares (`include/homa.h`).
#[rustfmt::skip]
mod homa {
    pub const OK: u32 = 0;
    pub const ASKS: u32 = 1;
    pub const DONE: u32 = 2;
    pub const FORGOTTEN: u32 = 4;

    /// Its pointer keeps it in one thread. It is no `Copy`: a handle has one owner.
    #[repr(C)]
    pub struct Handle { pub at: *mut u8, pub is_open: bool }

    #[repr(C)]
    #[derive(Default)]
    pub struct Settings {
        pub hosts: u32, pub seg: u32, pub window: u32, pub unsched: u32, pub overcommit: u32, pub rate: u32, pub resend: u32, pub tries: u32,
        pub life: u32, pub pages: u32, pub calls: u32, pub served: u32, pub rebalance: u32, pub skew: u32, pub wire: u32,
    }

    #[repr(C)]
    #[derive(Default, Clone, Copy, PartialEq)]
    pub struct CallId { pub client: u16, pub incarnation: u32, pub number: u32 }

    #[repr(C)]
    #[derive(Default)]
    pub struct Asked { pub id: CallId, pub service: u32 }

    #[repr(C)]
    #[derive(Default)]
    pub struct Frame { pub from: u16, pub to: u16, pub len: usize }

    #[repr(C)]
    #[derive(Default)]
    pub struct Entry { pub kind: u32, pub service: u32, pub id: CallId, pub len: usize }

    #[link(name = "homa", kind = "static")]
    extern "C" {
        pub fn homa_service(settings: &mut Settings);
        pub fn homa_open(settings: &Settings, id: u16, incarnation: u32, last: u64, host: &mut Handle) -> u32;
        pub fn homa_close(host: &mut Handle) -> u32;
        pub fn homa_call(host: &mut Handle, server: u16, service: u8, request: *const u8, len: usize, now: u64, id: &mut CallId) -> u32;
        pub fn homa_deliver(host: &mut Handle, from: u16, frame: *const u8, len: usize, now: u64, answer: *const u8, answer_len: usize,
                            asked: &mut Asked) -> u32;
        pub fn homa_turn(host: &mut Handle, now: u64) -> u32;
        pub fn homa_next_turn(host: &mut Handle, at: &mut u64) -> u32;
        pub fn homa_frames(host: &mut Handle) -> usize;
        pub fn homa_frame(host: &mut Handle, i: usize, room: *mut u8, room_len: usize, info: &mut Frame) -> u32;
        pub fn homa_entries(host: &mut Handle) -> usize;
        pub fn homa_entry(host: &mut Handle, i: usize, info: &mut Entry) -> u32;
        pub fn homa_whole_len(host: &mut Handle) -> usize;
        pub fn homa_whole(host: &mut Handle, room: *mut u8, room_len: usize, len: &mut usize) -> u32;
    }
}

/// A host on a socket that is connected to the other host's. Ticks are milliseconds since `start`, which both share.
struct Peer {
    handle: homa::Handle,
    socket: UdpSocket,
    other: u16,
    start: Instant,
}

impl Peer {
    fn open(number: u16, socket: UdpSocket, start: Instant) -> Peer {
        let mut settings = homa::Settings::default();
        let mut handle = homa::Handle { at: std::ptr::null_mut(), is_open: false };
        unsafe { homa::homa_service(&mut settings) };
        assert_eq!(unsafe { homa::homa_open(&settings, number, 1, 0, &mut handle) }, homa::OK);
        Peer { handle, socket, other: 1 - number, start }
    }

    fn tick(&self) -> u64 {
        self.start.elapsed().as_millis() as u64
    }

    fn call(&mut self, service: u8, request: &[u8]) -> homa::CallId {
        let (now, mut id) = (self.tick(), homa::CallId::default());
        let result = unsafe { homa::homa_call(&mut self.handle, self.other, service, request.as_ptr(), request.len(), now, &mut id) };
        assert_eq!(result, homa::OK);
        self.send();
        id
    }

    /// Sends the frames of the last step. One that the system doesn't take is lost, as on any net.
    fn send(&mut self) {
        let (mut room, mut frame) = ([0; 1500], homa::Frame::default());
        for i in 0..unsafe { homa::homa_frames(&mut self.handle) } {
            assert_eq!(unsafe { homa::homa_frame(&mut self.handle, i, room.as_mut_ptr(), room.len(), &mut frame) }, homa::OK);
            let _ = self.socket.send(&room[..frame.len]);
        }
    }

    /// The message that the last step made whole.
    fn whole(&mut self) -> Vec<u8> {
        let (mut room, mut len) = (vec![0; unsafe { homa::homa_whole_len(&mut self.handle) }], 0);
        assert_eq!(unsafe { homa::homa_whole(&mut self.handle, room.as_mut_ptr(), room.len(), &mut len) }, homa::OK);
        room
    }

    /// The call that the last step ended, and its response, or none where it failed.
    fn ended(&mut self) -> Option<(homa::CallId, Option<Vec<u8>>)> {
        let (count, mut entry) = (unsafe { homa::homa_entries(&mut self.handle) }, homa::Entry::default());
        let mut told = |i| unsafe { homa::homa_entry(&mut self.handle, i, &mut entry) } == homa::OK && (homa::DONE..=homa::FORGOTTEN).contains(&entry.kind);
        let is_ended = (0..count).any(&mut told);
        is_ended.then(|| (entry.id, (entry.kind == homa::DONE).then(|| self.whole())))
    }

    fn deliver(&mut self, datagram: &[u8], answer: &[u8], asked: &mut homa::Asked) -> u32 {
        let (from, len, now) = (self.other, datagram.len(), self.tick());
        unsafe { homa::homa_deliver(&mut self.handle, from, datagram.as_ptr(), len, now, answer.as_ptr(), answer.len(), asked) }
    }

    /// One step, a turn that is due or a datagram that comes before it, and sends what the step sent; or none.
    fn step(&mut self, serve: fn(u32, Vec<u8>) -> Vec<u8>) -> bool {
        let (now, mut room, mut asked) = (self.tick(), [0; 2048], homa::Asked::default());
        let mut at = now + 1000; // isn't written where no turn is needed
        unsafe { homa::homa_next_turn(&mut self.handle, &mut at) };
        if at <= now {
            assert_eq!(unsafe { homa::homa_turn(&mut self.handle, now) }, homa::OK);
        } else {
            self.socket.set_read_timeout(Some(Duration::from_millis(at - now))).expect("a limit");
            let Ok(len) = self.socket.recv(&mut room) else { return false };
            if self.deliver(&room[..len], &[], &mut asked) == homa::ASKS {
                let answer = serve(asked.service, self.whole());
                assert_eq!(self.deliver(&room[..len], &answer, &mut asked), homa::OK);
            }
        }
        self.send();
        true
    }
}

impl Drop for Peer {
    fn drop(&mut self) {
        unsafe { homa::homa_close(&mut self.handle) };
    }
}

fn reversed(service: u32, request: Vec<u8>) -> Vec<u8> {
    println!("service {service} is asked: {}", String::from_utf8_lossy(&request));
    request.into_iter().rev().collect()
}

fn main() -> std::io::Result<()> {
    let text = std::env::args().nth(1).unwrap_or("hello".into());
    let (start, sockets) = (Instant::now(), [UdpSocket::bind("127.0.0.1:0")?, UdpSocket::bind("127.0.0.1:0")?]);
    let addresses = [sockets[0].local_addr()?, sockets[1].local_addr()?];
    let [of_client, of_server] = sockets;
    of_client.connect(addresses[1])?;
    of_server.connect(addresses[0])?;
    std::thread::spawn(move || {
        let mut server = Peer::open(1, of_server, start);
        loop {
            server.step(reversed);
        }
    });
    let mut client = Peer::open(0, of_client, start);
    let id = client.call(7, text.as_bytes());
    let (ended, response) = loop {
        if let Some(it) = client.step(reversed).then(|| client.ended()).flatten() {
            break it;
        }
    };
    assert!(ended == id, "another call");
    println!("done: {}", String::from_utf8_lossy(&response.expect("the server was silent")));
    Ok(())
}
