//! Late answers: a host that keeps what asks.
use crate::{result, sys, Ask, CallId, Error, Host, Settings, Step};

/// A host that keeps the datagrams that ask, so that answers may come later.
#[derive(Debug)]
pub struct LateHost {
    host: Host,
}

/// What came of a datagram.
pub enum Heard<'a> {
    /// A step was done.
    Step(Step<'a>),
    /// A call needs an answer. It is reported once while it is kept.
    Asks(Ask),
    /// It asks for a call that is kept. Nothing happened.
    AtWork,
    /// It asks, and there is no room to keep it. Nothing happened; its client asks again.
    Full,
}

/// What came of an answer.
pub enum Answered<'a> {
    /// A step was done. An event [`crate::Event::Ran`] says that the answer was taken; otherwise it is kept for the next datagram that asks.
    Step(Step<'a>),
    /// The datagram is too old; the answer is kept for the next that asks.
    Later,
    /// No such call waits for an answer.
    Gone,
}

impl LateHost {
    /// Opens a host with room for so many calls, 1 to 4,096. A kept datagram is delivered at most `keep` ticks after it came, 0 to `life`.
    pub fn open(settings: &Settings, id: u16, incarnation: u32, last: u64, kept: u32, keep: u32) -> Result<LateHost, Error> {
        // SAFETY: the handle is closed, and both pointers are valid.
        let host = Host::opened(|host| unsafe { sys::homa_open_late(&settings.0, id, incarnation, last, kept, keep, host) })?;
        Ok(LateHost { host })
    }

    /// The host, for calls and turns. A datagram that comes there with its answer is as at any host.
    pub fn host(&mut self) -> &mut Host {
        &mut self.host
    }

    /// How many calls are kept.
    pub fn at_work(&mut self) -> u64 {
        self.host.counts().kept
    }

    /// A datagram came from a host.
    pub fn deliver(&mut self, from: u16, datagram: &[u8], now: u64) -> Result<Heard<'_>, Error> {
        let (mut asked, none) = (sys::homa_asked::default(), [].as_ptr());
        let raw = self.host.raw();
        // SAFETY: an empty slice's pointer isn't null; `asked` is no part of the host.
        let code = unsafe { sys::homa_deliver(raw, from, datagram.as_ptr(), datagram.len(), now, none, 0, &mut asked) };
        Ok(match code {
            sys::HOMA_ASKS => Heard::Asks(self.host.ask(asked)),
            sys::HOMA_AT_WORK => Heard::AtWork,
            sys::HOMA_FULL => Heard::Full,
            code => {
                result(code)?;
                Heard::Step(self.host.step())
            }
        })
    }

    /// The answer to a call that asked, of 1 to 1,000,000 bytes.
    pub fn answer(&mut self, id: CallId, answer: &[u8], now: u64) -> Result<Answered<'_>, Error> {
        // SAFETY: as for `deliver`.
        Ok(match unsafe { sys::homa_answer(self.host.raw(), &id, answer.as_ptr(), answer.len(), now) } {
            sys::HOMA_LATER => Answered::Later,
            sys::HOMA_GONE => Answered::Gone,
            code => {
                result(code)?;
                Answered::Step(self.host.step())
            }
        })
    }

    /// No answer will come: if the call asks again, it is reported again. False if it isn't kept.
    pub fn decline(&mut self, id: CallId) -> bool {
        // SAFETY: as for `deliver`.
        unsafe { sys::homa_decline(self.host.raw(), &id) == sys::HOMA_OK }
    }
}
