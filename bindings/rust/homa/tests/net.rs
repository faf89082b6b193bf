//! Hosts in one process, ticks by hand.
use homa::{Answered, CallId, Came, Error, Event, Heard, Host, LateHost, Mistake, Note, Settings};
use std::collections::HashMap;

type Net = Vec<(u16, u16, Vec<u8>)>;

fn settings() -> Settings {
    let mut it = Settings::usual();
    it.0.hosts = 3;
    it.0.life = 1000;
    it
}

#[test]
fn layout() {
    use homa_sys::*;
    use std::mem::{align_of, offset_of, size_of};
    assert_eq!((size_of::<homa_settings>(), align_of::<homa_settings>()), (60, 4));
    assert_eq!((offset_of!(homa_settings, resend), offset_of!(homa_settings, tries), offset_of!(homa_settings, wire)), (24, 28, 56));
    assert_eq!((size_of::<homa_call_id>(), offset_of!(homa_call_id, incarnation), offset_of!(homa_call_id, number)), (12, 4, 8));
    assert_eq!((size_of::<homa_asked>(), offset_of!(homa_asked, service)), (16, 12));
    assert_eq!((size_of::<homa_frame_info>(), offset_of!(homa_frame_info, to), offset_of!(homa_frame_info, len)), (16, 2, 8));
    assert_eq!((size_of::<homa_entry_info>(), offset_of!(homa_entry_info, service), offset_of!(homa_entry_info, id), offset_of!(homa_entry_info, len)), (32, 4, 8, 24));
    assert_eq!((size_of::<homa_more_info>(), offset_of!(homa_more_info, at)), (16, 8));
    assert_eq!((size_of::<homa_host>(), offset_of!(homa_host, is_open)), (16, 8));
}

#[test]
fn what_is_refused() {
    let mut it = settings();
    let mistake = |it| Some(Error::Mistake(it));
    assert_eq!(Host::open(&it, 3, 1, 0).err(), mistake(Mistake::Host));
    assert_eq!(Host::open(&it, 0, 0, 0).err(), mistake(Mistake::Incarnation));
    assert_eq!(Host::open(&it, 0, 1, u64::MAX).err(), mistake(Mistake::Tick));
    (it.0.calls, it.0.pages) = (1, 3);
    let mut host = Host::open(&it, 0, 1, 5).unwrap();
    assert_eq!(host.call(0, 7, b"x", 5).err(), mistake(Mistake::Host));
    assert_eq!(host.call(1, 7, b"", 5).err(), mistake(Mistake::NoBytes));
    assert_eq!(host.call(1, 7, b"x", 4).err(), mistake(Mistake::Tick));
    assert_eq!(host.call(1, 7, &[0; 12289], 5).err(), mistake(Mistake::TooManyPages));
    assert_eq!(host.call(1, 7, &[0; 1_000_001], 5).err(), mistake(Mistake::TooLong));
    assert_eq!(host.call(1, 7, b"x", 1_000_000_002_001).err(), Some(Error::Spent));
    assert_eq!((host.live(), host.last(), host.counts().calls), (0, 5, 0));
    assert!(host.call(1, 7, b"x", 6).is_ok());
    assert_eq!(host.call(1, 7, b"x", 6).err(), Some(Error::Full));
    assert_eq!((host.live(), host.last(), host.counts().calls), (1, 6, 1));
    assert_eq!(host.turn(5).err().unwrap().to_string(), "bad tick");
    it.0.tries = 101;
    assert_eq!((Host::open(&it, 0, 1, 0).err(), it.fault()), (mistake(Mistake::Setting), Some("tries")));
    assert!(Host::open(&Settings::default(), 31, 1, 0).is_ok() && Settings::default().fault().is_none());
    assert_eq!(homa::version(), homa_sys::HOMA_VERSION_NUMBER);
}

#[test]
fn notes() {
    let mut it = settings();
    (it.0.wire, it.0.life) = (2, 20);
    let mut client = Host::open(&it, 2, 1, 0).unwrap();
    let mut server = Host::open(&it, 1, 1, 0).unwrap();
    let (_, step) = client.call(1, 7, b"hello", 3).unwrap();
    let (_, packet) = step.frames().next().unwrap();
    for (now, datagram, note) in [(0, &b"no packet"[..], Note::Junk { from: 2 }), (24, &packet, Note::Stale { from: 2, at: 3 })] {
        match server.deliver(2, datagram, now).unwrap() {
            Came::Step(mut step) => assert_eq!((step.notes(), step.events()), (vec![note], vec![])),
            Came::Asks(_) => panic!("nobody asks"),
        }
    }
    let counts = server.counts();
    assert_eq!((counts.junk, counts.stale, counts.received, counts.asked), (1, 1, 2, 0));
}

#[test]
fn ten_thousand_calls() {
    let mut settings = settings();
    settings.0.life = 100; // four calls a tick: 400 rows of `served`
    let mut hosts: Vec<Host> = (0..2).map(|i| Host::open(&settings, i, 1, 0).unwrap()).collect();
    let mut open: HashMap<CallId, Vec<u8>> = HashMap::new();
    let (mut net, mut done): (Net, u32) = (Vec::new(), 0);
    for c in 0..10_000u32 {
        let now = u64::from(c / 4);
        let request: Vec<u8> = (0..=(c * 7919 % 3000)).map(|x| (x + c) as u8).collect();
        let (id, step) = hosts[0].call(1, 7, &request, now).unwrap();
        net.extend(step.frames().map(|(to, it)| (0, to, it)));
        open.insert(id, request);
        let mut i = 0;
        while i < net.len() {
            let (from, to, it) = net[i].clone();
            i += 1;
            let host = &mut hosts[usize::from(to)];
            let mut step = match host.deliver(from, &it, now).unwrap() {
                Came::Asks(mut ask) => {
                    ask.request.reverse();
                    match host.deliver_with(from, &it, now, &ask.request).unwrap() {
                        Came::Step(step) => step,
                        Came::Asks(_) => panic!("it asks with an answer in hand"),
                    }
                }
                Came::Step(step) => step,
            };
            for event in step.events() {
                if let Event::Done { id, mut response } = event {
                    response.reverse();
                    assert_eq!(Some(response), open.remove(&id));
                    done += 1;
                }
            }
            net.extend(step.frames().map(|(onward, it)| (to, onward, it)));
        }
        net.clear();
        for k in 0..2u16 {
            net.extend(hosts[usize::from(k)].turn(now).unwrap().frames().map(|(to, it)| (k, to, it)));
        }
    }
    assert_eq!((done, open.len()), (10_000, 0));
}

/// One call of so many bytes, answered after so many ticks. How often it was told, and how it ended.
fn late(len: usize, after: u64) -> (u32, u32, Option<Event>) {
    let mut server = LateHost::open(&settings(), 0, 1, 0, 4, 1000).unwrap();
    let mut client = Host::open(&settings(), 1, 1, 0).unwrap();
    let (mut told, mut again, mut ended, mut asked) = (0, 0, None, None);
    let (_, step) = client.call(0, 7, &vec![5; len], 0).unwrap();
    let mut net: Net = step.frames().map(|(to, it)| (1, to, it)).collect();
    for now in 0..400 {
        if now == after {
            if let Some(id) = asked {
                match server.answer(id, b"late", now).unwrap() {
                    Answered::Step(step) => net.extend(step.frames().map(|(to, it)| (0, to, it))),
                    Answered::Later => panic!("it isn't too old"),
                    Answered::Gone => panic!("it waits"),
                }
                assert!(matches!(server.answer(id, b"late", now).unwrap(), Answered::Gone));
            }
        }
        loop {
            for (from, to, it) in std::mem::take(&mut net) {
                if to == 0 {
                    match server.deliver(from, &it, now).unwrap() {
                        Heard::Step(step) => net.extend(step.frames().map(|(to, it)| (0, to, it))),
                        Heard::Asks(ask) => (told, asked) = (told + 1, Some(ask.id)),
                        Heard::AtWork => again += 1,
                        Heard::Full => panic!("there is room"),
                    }
                } else if let Came::Step(mut step) = client.deliver(from, &it, now).unwrap() {
                    ended = step.events().pop().or(ended);
                    net.extend(step.frames().map(|(to, it)| (1, to, it)));
                }
            }
            net.extend(server.host().turn(now).unwrap().frames().map(|(to, it)| (0, to, it)));
            let mut step = client.turn(now).unwrap();
            ended = step.events().pop().or(ended);
            net.extend(step.frames().map(|(to, it)| (1, to, it)));
            if net.is_empty() {
                break;
            }
        }
    }
    assert_eq!(server.at_work(), 0);
    (told, again, ended)
}

#[test]
fn late_answers() {
    for (len, after, is_done) in [(100, 1, true), (100, 20, true), (100, 30, false), (3000, 1, true), (3000, 30, true), (3000, 200, true)] {
        let (told, again, ended) = late(len, after);
        assert_eq!(told, 1, "{len} bytes after {after}");
        assert!(after < 4 || again > 0);
        match ended {
            Some(Event::Done { response, .. }) => assert!(is_done && response == b"late"),
            Some(Event::Timeout { .. }) => assert!(!is_done),
            other => panic!("{other:?}"),
        }
    }
}
