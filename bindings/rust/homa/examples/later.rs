//! A server that answers ten ticks after it was asked: its host keeps what asks, so the program keeps the calls' ids alone. Two hosts in one
//! process; ticks are counted by hand. Prints when each call is told, and when it is done.
use homa::{Answered, CallId, Came, Error, Event, Heard, Host, LateHost, Settings, Step};
use std::collections::VecDeque;

/// A call at work: when its answer is ready, and the answer.
struct Job {
    id: CallId,
    ready: u64,
    answer: Vec<u8>,
}

fn frames(step: Step<'_>, under_way: &mut VecDeque<(u16, Vec<u8>)>) {
    under_way.extend(step.frames());
}

fn main() -> Result<(), Error> {
    let settings = Settings::default();
    let mut client = Host::open(&settings, 0, 1, 0)?;
    let mut server = LateHost::open(&settings, 1, 1, 0, 16, settings.0.life)?;
    let (mut under_way, mut jobs) = (VecDeque::new(), VecDeque::new());
    for request in ["hello", "good day"] {
        frames(client.call(1, 7, request.as_bytes(), 0)?.1, &mut under_way);
    }
    for now in 0..20 {
        while let Some((to, datagram)) = under_way.pop_front() {
            if to == 0 {
                if let Came::Step(mut step) = client.deliver(1, &datagram, now)? {
                    for event in step.events() {
                        if let Event::Done { id, response } = event {
                            println!("tick {now}: call {} is done: {}", id.number, String::from_utf8_lossy(&response));
                        }
                    }
                    frames(step, &mut under_way);
                }
                continue;
            }
            match server.deliver(0, &datagram, now)? {
                Heard::Step(step) => frames(step, &mut under_way),
                Heard::Asks(ask) => {
                    println!("tick {now}: call {} is told", ask.id.number);
                    jobs.push_back(Job { id: ask.id, ready: now + 10, answer: ask.request.into_iter().rev().collect() });
                }
                Heard::AtWork | Heard::Full => {} // nothing is to be done: it is at work, or asks again
            }
        }
        while jobs.front().is_some_and(|job: &Job| job.ready <= now) {
            let job = jobs.pop_front().expect("a job");
            if let Answered::Step(step) = server.answer(job.id, &job.answer, now)? {
                frames(step, &mut under_way);
            }
        }
        frames(client.turn(now)?, &mut under_way);
        frames(server.host().turn(now)?, &mut under_way);
    }
    println!("{} calls are kept at the end", server.at_work());
    Ok(())
}
