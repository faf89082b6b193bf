//! Two threads over UDP on this machine: a server that answers requests in reverse, and a client.
//!
//! usage: echo [CALLS [BYTES]]
use homa::{Came, Event, Host, Settings};
use std::net::UdpSocket;
use std::sync::atomic::{AtomicBool, Ordering};
use std::time::{Duration, Instant};
use std::{env, io, thread};

const TICK: Duration = Duration::from_micros(100);

/// A host with its socket and its clock.
struct Node {
    host: Host,
    net: UdpSocket,
    peer: std::net::SocketAddr,
    began: Instant,
    number: u16,
}

impl Node {
    fn now(&self) -> u64 {
        (self.began.elapsed().as_nanos() / TICK.as_nanos()) as u64
    }

    /// Waits for a datagram or for the next turn, and takes all that is there. Returns what the steps reported.
    fn round(&mut self, serve: impl Fn(&[u8]) -> Vec<u8>) -> io::Result<Vec<Event>> {
        let (mut room, mut told) = ([0; 2048], Vec::new());
        let at = self.host.next_turn().map_or(Duration::from_millis(100), |at| TICK * (at.min(1 << 31) as u32));
        let left = at.checked_sub(self.began.elapsed()).unwrap_or_default().clamp(Duration::from_micros(1), Duration::from_millis(100));
        self.net.set_read_timeout(Some(left))?;
        match self.net.recv_from(&mut room) {
            Ok((len, from)) if from == self.peer => {
                let (now, other) = (self.now(), 1 - self.number);
                let mut step = match self.host.deliver(other, &room[..len], now).map_err(io::Error::other)? {
                    Came::Step(step) => step,
                    Came::Asks(ask) => match self.host.deliver_with(other, &room[..len], now, &serve(&ask.request)).map_err(io::Error::other)? {
                        Came::Step(step) => step,
                        Came::Asks(_) => unreachable!("it asks with an answer in hand"),
                    },
                };
                told = step.events();
                step.send(|_, frame| drop(self.net.send_to(frame, self.peer)));
            }
            Ok(_) => {}
            Err(e) if matches!(e.kind(), io::ErrorKind::WouldBlock | io::ErrorKind::TimedOut) => {}
            Err(e) => return Err(e),
        }
        let now = self.now();
        if self.host.next_turn().is_some_and(|at| at <= now) {
            let mut step = self.host.turn(now).map_err(io::Error::other)?;
            told.extend(step.events());
            step.send(|_, frame| drop(self.net.send_to(frame, self.peer)));
        }
        Ok(told)
    }
}

fn main() -> io::Result<()> {
    let mut words = env::args().skip(1);
    let calls: u32 = words.next().map_or(1000, |it| it.parse().expect("CALLS"));
    let bytes: usize = words.next().map_or(100, |it| it.parse().expect("BYTES"));
    let mut settings = Settings::default();
    // a read timeout of the system is 4 ms late, and so are turns: they needn't fill the credit up often
    (settings.0.resend, settings.0.rate) = (1000, 1_000_000);
    let nets = [UdpSocket::bind("127.0.0.1:0")?, UdpSocket::bind("127.0.0.1:0")?];
    let (began, over) = (Instant::now(), AtomicBool::new(false));
    let ports = [nets[0].local_addr()?, nets[1].local_addr()?];
    let mut nodes = Vec::new();
    for (number, net) in (0u16..).zip(nets) {
        let host = Host::open(&settings, number, 1, 0).expect("open");
        nodes.push(Node { host, net, peer: ports[usize::from(1 - number)], began, number });
    }
    let mut server = nodes.pop().unwrap();
    let mut client = nodes.pop().unwrap();
    thread::scope(|scope| {
        let served = scope.spawn(|| -> io::Result<usize> {
            let mut ran = 0;
            while !over.load(Ordering::Relaxed) {
                ran += server.round(|it| it.iter().rev().copied().collect())?.len();
            }
            Ok(ran)
        });
        let (mut done, mut failed, mut times) = (0, 0, Vec::new());
        for i in 0..calls {
            let request: Vec<u8> = (0..bytes).map(|x| (x as u32 * 31 + i) as u8).collect();
            let (now, began) = (client.now(), Instant::now());
            let (id, mut step) = client.host.call(1, 7, &request, now).map_err(io::Error::other)?;
            step.send(|_, frame| drop(client.net.send_to(frame, client.peer)));
            'call: loop {
                for event in client.round(|_| unreachable!("nobody calls the client"))? {
                    match event {
                        Event::Done { id: of, response } if of == id => {
                            assert!(response.iter().rev().eq(request.iter()));
                            done += 1;
                            times.push(began.elapsed());
                            break 'call;
                        }
                        Event::Timeout { id: of } | Event::Forgotten { id: of } if of == id => {
                            failed += 1;
                            break 'call;
                        }
                        _ => {}
                    }
                }
            }
        }
        over.store(true, Ordering::Relaxed);
        let ran = served.join().expect("the server")?;
        times.sort();
        println!("{done} done, {failed} failed, {ran} served; half of the calls took at most {:?}", times.get(times.len() / 2).unwrap_or(&Duration::ZERO));
        Ok(())
    })
}
