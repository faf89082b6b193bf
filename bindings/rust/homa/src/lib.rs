//! One Homa host: a program feeds it with datagrams, ticks and calls, and sends what it is given.
//!
//! What a step shows is read through a [`Step`], which borrows the host: no further step can begin while it is read.
//!
//! ```compile_fail
//! let mut host = homa::Host::open(&homa::Settings::default(), 0, 1, 0).unwrap();
//! let step = host.turn(1).unwrap();
//! host.turn(2).unwrap(); // the host is borrowed by the step
//! step.frames().count();
//! ```
//!
//! A host may go to another thread, and isn't shared between threads:
//!
//! ```
//! let host = homa::Host::open(&homa::Settings::default(), 0, 1, 0).unwrap();
//! std::thread::spawn(move || drop(host)).join().unwrap();
//! ```
//!
//! ```compile_fail
//! fn shared<T: Sync>(_: T) {}
//! shared(homa::Host::open(&homa::Settings::default(), 0, 1, 0).unwrap());
//! ```
use homa_sys as sys;
use std::{fmt, mem::MaybeUninit, ptr};

mod late;
pub use homa_sys::{homa_call_id as CallId, homa_settings as RawSettings};
pub use late::{Answered, Heard, LateHost};

/// The most bytes of a message.
pub const MOST_MESSAGE: usize = 1_000_000;
/// The most bytes of a frame.
pub const MOST_FRAME: usize = 1500;

/// The settings of a net: all its hosts have the same.
#[derive(Clone, Copy, Debug, PartialEq, Eq)]
pub struct Settings(pub RawSettings);

impl Default for Settings {
    /// Settings for a network of services, with ticks of 100 microseconds to 10 milliseconds.
    fn default() -> Settings {
        Settings::filled(sys::homa_service)
    }
}

impl Settings {
    fn filled(fill: unsafe extern "C" fn(*mut RawSettings)) -> Settings {
        let mut raw = MaybeUninit::uninit();
        // SAFETY: the call writes all of the struct.
        unsafe {
            fill(raw.as_mut_ptr());
            Settings(raw.assume_init())
        }
    }

    /// Those that the program `homa` means by usual.
    pub fn usual() -> Settings {
        Settings::filled(sys::homa_usual)
    }

    /// The first setting that is wrong, or two that don't go together.
    pub fn fault(&self) -> Option<&'static str> {
        // SAFETY: the pointer is valid.
        match unsafe { sys::homa_wrong_setting(&self.0) } {
            0 => None,
            n => Some(SETTINGS.get(n as usize - 1).copied().unwrap_or("a setting")),
        }
    }
}

const SETTINGS: [&str; 17] = [
    "hosts", "seg", "window", "unsched", "overcommit", "rate", "resend", "tries", "life", "pages", "calls", "served", "rebalance", "skew", "wire",
    "unsched over window", "rate under seg",
];

/// Why something wasn't done. Nothing happened to the host then.
#[derive(Clone, Copy, Debug, PartialEq, Eq)]
#[non_exhaustive]
pub enum Error {
    /// As many calls are live as `calls` says: later.
    Full,
    /// Never in this incarnation: its numbers, its steps or its clock are at their end.
    Spent,
    /// There is no memory. The same may be tried again.
    NoMemory,
    /// The program made a mistake.
    Mistake(Mistake),
}

/// What a program did that it mustn't.
#[derive(Clone, Copy, Debug, PartialEq, Eq)]
#[non_exhaustive]
pub enum Mistake {
    /// The library that is linked is of another version.
    Library,
    /// [`Settings::fault`] says which setting.
    Setting,
    /// There is no such host, or no other one of that number.
    Host,
    /// The incarnation is 0.
    Incarnation,
    /// `last` is past the last tick, or `now` is below the tick of the last step.
    Tick,
    /// A request or an answer of no bytes.
    NoBytes,
    /// A message of over 1,000,000 bytes, or a datagram of over 65,535.
    TooLong,
    /// The message takes more pages than `pages`: no host of this net could ever take it.
    TooManyPages,
    /// A result that this crate doesn't know.
    Other(u32),
}

impl Error {
    fn of(code: u32) -> Error {
        Error::Mistake(match code {
            sys::HOMA_FULL => return Error::Full,
            sys::HOMA_SPENT => return Error::Spent,
            sys::HOMA_NO_MEMORY => return Error::NoMemory,
            sys::HOMA_BAD_SETTING => Mistake::Setting,
            sys::HOMA_BAD_HOST => Mistake::Host,
            sys::HOMA_BAD_INCARNATION => Mistake::Incarnation,
            sys::HOMA_BAD_TICK => Mistake::Tick,
            sys::HOMA_NO_BYTES => Mistake::NoBytes,
            sys::HOMA_TOO_LONG => Mistake::TooLong,
            sys::HOMA_TOO_MANY_PAGES => Mistake::TooManyPages,
            other => Mistake::Other(other),
        })
    }
}

impl fmt::Display for Error {
    fn fmt(&self, f: &mut fmt::Formatter<'_>) -> fmt::Result {
        match self {
            Error::Full => f.write_str("full"),
            Error::Spent => f.write_str("spent"),
            Error::NoMemory => f.write_str("no memory"),
            Error::Mistake(it) => it.fmt(f),
        }
    }
}

impl fmt::Display for Mistake {
    fn fmt(&self, f: &mut fmt::Formatter<'_>) -> fmt::Result {
        f.write_str(match self {
            Mistake::Library => "another version of the library",
            Mistake::Setting => "bad setting",
            Mistake::Host => "bad host",
            Mistake::Incarnation => "bad incarnation",
            Mistake::Tick => "bad tick",
            Mistake::NoBytes => "no bytes",
            Mistake::TooLong => "too long",
            Mistake::TooManyPages => "too many pages",
            Mistake::Other(code) => return write!(f, "result {code}"),
        })
    }
}

impl std::error::Error for Error {}

/// The version of the library: 65,536 * MAJOR + 256 * MINOR + PATCH.
pub fn version() -> u32 {
    // SAFETY: it reads and writes nothing.
    unsafe { sys::homa_version() }
}

/// A program runs with a library of its own major number; while that is 0, of its own minor number too.
fn is_ours(version: u32) -> bool {
    let shift = if sys::HOMA_VERSION_NUMBER >> 16 == 0 { 8 } else { 16 };
    version >> shift == sys::HOMA_VERSION_NUMBER >> shift
}

/// A call whose request is whole.
#[derive(Clone, Debug, PartialEq, Eq)]
pub struct Ask {
    pub id: CallId,
    pub service: u8,
    pub request: Vec<u8>,
}

/// What came of a datagram.
pub enum Came<'a> {
    /// A step was done.
    Step(Step<'a>),
    /// An answer is needed, and nothing happened: deliver the same datagram with it.
    Asks(Ask),
}

/// What a step reports to a program.
#[derive(Clone, Debug, PartialEq, Eq)]
#[non_exhaustive]
pub enum Event {
    /// A request was answered, with the answer that was given.
    Ran { id: CallId, service: u8 },
    /// A call is done: its response.
    Done { id: CallId, response: Vec<u8> },
    /// A call failed: after its RESENDs nothing came that counts. It may have been served, and may still be.
    Timeout { id: CallId },
    /// A call failed: it was served, and the response is gone.
    Forgotten { id: CallId },
}

/// What a step reports of the net and of the host itself, for logs and counters.
#[derive(Clone, Copy, Debug, PartialEq, Eq)]
#[non_exhaustive]
pub enum Note {
    /// A datagram of this host is no packet.
    Junk { from: u16 },
    /// A packet of this host is too old: it was sent at tick `at`.
    Stale { from: u16, at: u64 },
    /// A request wasn't taken, since all rows are in use.
    NoRow { id: CallId, rows: usize },
    /// A message wasn't taken, since too few pages are free.
    NoPages { id: CallId, from: u16, need: usize, free: u64 },
    /// A piece wasn't taken, since its message would have too many gaps.
    Gaps { id: CallId, from: u16 },
    /// A request was given up before it was whole.
    Dropped { id: CallId },
    /// A call that was served is over; it is remembered up to a tick.
    Buried { id: CallId, until: u64 },
    /// A call that was served isn't remembered any more.
    Freed { id: CallId },
}

/// What a host counted from its opening on, and how many calls are live, how many are kept until they are answered, and how many
/// rows it has for calls that it serves.
#[derive(Clone, Copy, Debug, Default, PartialEq, Eq)]
pub struct Counts {
    pub calls: u64,
    pub done: u64,
    pub timeouts: u64,
    pub forgotten: u64,
    pub asked: u64,
    pub ran: u64,
    pub sent: u64,
    pub sent_bytes: u64,
    pub received: u64,
    pub resends_sent: u64,
    pub junk: u64,
    pub stale: u64,
    pub no_row: u64,
    pub no_pages: u64,
    pub gaps: u64,
    pub dropped: u64,
    pub buried: u64,
    pub freed: u64,
    pub live: u64,
    pub kept: u64,
    pub rows: u64,
}

/// A host. It gives its memory back when it is dropped.
#[derive(Debug)]
pub struct Host(sys::homa_host);

// SAFETY: the library has no data of its own and no thread-local variables; a handle is one object on the heap, and `&mut` keeps its calls apart.
unsafe impl Send for Host {}

fn result(code: u32) -> Result<(), Error> {
    match code {
        sys::HOMA_OK => Ok(()),
        code => Err(Error::of(code)),
    }
}

impl Host {
    fn raw(&mut self) -> *mut sys::homa_host {
        &mut self.0
    }

    /// Opens host `id` in an incarnation that is larger than each earlier one; `last` is the tick of its last step then.
    pub fn open(settings: &Settings, id: u16, incarnation: u32, last: u64) -> Result<Host, Error> {
        // SAFETY: the handle is closed, and both pointers are valid.
        Host::opened(|host| unsafe { sys::homa_open(&settings.0, id, incarnation, last, host) })
    }

    fn opened(open: impl FnOnce(*mut sys::homa_host) -> u32) -> Result<Host, Error> {
        if !is_ours(version()) {
            return Err(Error::Mistake(Mistake::Library));
        }
        let mut host = Host(sys::homa_host { at: ptr::null_mut(), is_open: false });
        result(open(host.raw()))?;
        Ok(host)
    }

    fn step(&mut self) -> Step<'_> {
        Step { host: self }
    }

    /// Calls a service of another host.
    pub fn call(&mut self, server: u16, service: u8, request: &[u8], now: u64) -> Result<(CallId, Step<'_>), Error> {
        let mut id = CallId::default();
        // SAFETY: an empty slice's pointer isn't null; `id` is no part of the host.
        result(unsafe { sys::homa_call(self.raw(), server, service, request.as_ptr(), request.len(), now, &mut id) })?;
        Ok((id, self.step()))
    }

    /// A datagram came from a host, without an answer.
    pub fn deliver(&mut self, from: u16, datagram: &[u8], now: u64) -> Result<Came<'_>, Error> {
        self.deliver_with(from, datagram, now, &[])
    }

    /// A datagram came from a host, with the answer to the request that it may make whole.
    pub fn deliver_with(&mut self, from: u16, datagram: &[u8], now: u64, answer: &[u8]) -> Result<Came<'_>, Error> {
        let mut asked = sys::homa_asked::default();
        // SAFETY: as for `call`.
        let code =
            unsafe { sys::homa_deliver(self.raw(), from, datagram.as_ptr(), datagram.len(), now, answer.as_ptr(), answer.len(), &mut asked) };
        if code == sys::HOMA_ASKS {
            return Ok(Came::Asks(self.ask(asked)));
        }
        result(code)?;
        Ok(Came::Step(self.step()))
    }

    fn ask(&mut self, asked: sys::homa_asked) -> Ask {
        Ask { id: asked.id, service: asked.service as u8, request: self.step().whole() }
    }

    /// A turn.
    pub fn turn(&mut self, now: u64) -> Result<Step<'_>, Error> {
        // SAFETY: the handle is the host's.
        result(unsafe { sys::homa_turn(self.raw(), now) })?;
        Ok(self.step())
    }

    /// The tick before which no turn does anything; none where no turn does before the next call or datagram.
    pub fn next_turn(&mut self) -> Option<u64> {
        let mut at = 0;
        // SAFETY: as for `turn`.
        (unsafe { sys::homa_next_turn(self.raw(), &mut at) } == sys::HOMA_OK).then_some(at)
    }

    /// How many calls are live.
    pub fn live(&mut self) -> u32 {
        // SAFETY: as for `turn`.
        unsafe { sys::homa_live(self.raw()) }
    }

    /// The tick of the last step.
    pub fn last(&mut self) -> u64 {
        // SAFETY: as for `turn`.
        unsafe { sys::homa_last(self.raw()) }
    }

    /// What was counted from the opening on.
    pub fn counts(&mut self) -> Counts {
        // SAFETY: as for `turn`.
        let mut all = (0..sys::HOMA_COUNTS).map(|which| unsafe { sys::homa_count(self.raw(), which) });
        let mut next = || all.next().unwrap_or_default();
        Counts {
            calls: next(),
            done: next(),
            timeouts: next(),
            forgotten: next(),
            asked: next(),
            ran: next(),
            sent: next(),
            sent_bytes: next(),
            received: next(),
            resends_sent: next(),
            junk: next(),
            stale: next(),
            no_row: next(),
            no_pages: next(),
            gaps: next(),
            dropped: next(),
            buried: next(),
            freed: next(),
            live: next(),
            kept: next(),
            rows: next(),
        }
    }
}

impl Drop for Host {
    fn drop(&mut self) {
        // SAFETY: as for `turn`; a closed handle refuses.
        unsafe { sys::homa_close(self.raw()) };
    }
}

/// What the last step of a host shows.
#[derive(Debug)]
pub struct Step<'a> {
    host: &'a mut Host,
}

impl Step<'_> {
    /// Gives each frame of the step to `send`, with the host that it goes to.
    pub fn send(&mut self, mut send: impl FnMut(u16, &[u8])) {
        let mut room = [0; MOST_FRAME];
        let mut info = sys::homa_frame_info::default();
        let raw = self.host.raw();
        // SAFETY: the room has as many bytes as it is said to have, and nothing overlaps.
        unsafe {
            for i in 0..sys::homa_frames(raw) {
                if sys::homa_frame(raw, i, room.as_mut_ptr(), room.len(), &mut info) == sys::HOMA_OK {
                    send(info.to, &room[..info.len]);
                }
            }
        }
    }

    /// The frames of the step, each with the host that it goes to.
    pub fn frames(self) -> impl Iterator<Item = (u16, Vec<u8>)> {
        let (mut step, mut all) = (self, Vec::new());
        step.send(|to, frame| all.push((to, frame.to_vec())));
        all.into_iter()
    }

    fn whole(&mut self) -> Vec<u8> {
        let raw = self.host.raw();
        // SAFETY: the vector has room for `len` bytes, and the call writes as many of them as it says; a vector's pointer isn't null.
        unsafe {
            let len = sys::homa_whole_len(raw);
            let (mut bytes, mut got) = (Vec::with_capacity(len), 0);
            if sys::homa_whole(raw, bytes.as_mut_ptr(), len, &mut got) == sys::HOMA_OK {
                bytes.set_len(got);
            }
            bytes
        }
    }

    /// What the step reports of the net and of the host itself.
    pub fn notes(&mut self) -> Vec<Note> {
        let (mut entry, mut more) = (sys::homa_entry_info::default(), sys::homa_more_info::default());
        let raw = self.host.raw();
        let mut all = Vec::new();
        // SAFETY: as for `send`.
        for i in 0..unsafe { sys::homa_entries(raw) } {
            let codes = unsafe { (sys::homa_entry(raw, i, &mut entry), sys::homa_entry_more(raw, i, &mut more)) };
            if codes == (sys::HOMA_OK, sys::HOMA_OK) {
                all.extend(note_of(&entry, &more));
            }
        }
        all
    }

    /// What the step reports to a program.
    pub fn events(&mut self) -> Vec<Event> {
        let mut all = Vec::new();
        let mut entry = sys::homa_entry_info::default();
        // SAFETY: as for `send`.
        for i in 0..unsafe { sys::homa_entries(self.host.raw()) } {
            if unsafe { sys::homa_entry(self.host.raw(), i, &mut entry) } != sys::HOMA_OK {
                continue;
            }
            let id = entry.id;
            match entry.kind {
                sys::HOMA_RAN => all.push(Event::Ran { id, service: entry.service as u8 }),
                sys::HOMA_DONE => all.push(Event::Done { id, response: self.whole() }),
                sys::HOMA_TIMEOUT => all.push(Event::Timeout { id }),
                sys::HOMA_FORGOTTEN => all.push(Event::Forgotten { id }),
                _ => {}
            }
        }
        all
    }
}

fn note_of(entry: &sys::homa_entry_info, more: &sys::homa_more_info) -> Option<Note> {
    let (id, from) = (entry.id, more.peer);
    Some(match entry.kind {
        sys::HOMA_JUNK => Note::Junk { from },
        sys::HOMA_STALE => Note::Stale { from, at: more.at },
        sys::HOMA_NO_ROW => Note::NoRow { id, rows: entry.len },
        sys::HOMA_NO_PAGES => Note::NoPages { id, from, need: entry.len, free: more.at },
        sys::HOMA_GAPS => Note::Gaps { id, from },
        sys::HOMA_DROPPED => Note::Dropped { id },
        sys::HOMA_BURIED => Note::Buried { id, until: more.at },
        sys::HOMA_FREED => Note::Freed { id },
        _ => return None,
    })
}
