//! The original: its sockets called directly, with handles 1 and 2; and its
//! system calls over user memory.

use crate::call::{bytes, Call, Memory, Shape};
use crate::side::{buffer, Answer, Look, Packet, Side};
use differential::machine::{Done, Machine};
use differential::oracle;
use differential::record::Record;
use differential::sockets::Sockets;
use differential::values::{status, word_of};
use differential::waits::{Fired, Waits};
use std::sync::Arc;
use zcore::capacity::{set_socket_size, ORIGINAL};
use zcore::object::KernelObject;
use zcore::{ipc, untouched, ZxError, ZxResult};

/// A new pair of the original. Without memory and with the original's own
/// capacity its file is untouched, else the constant is replaced.
pub fn original(shape: &Shape) -> Box<dyn Side> {
    if let Some(memory) = shape.memory {
        return Box::new(Process::new(shape, memory));
    }
    if shape.capacity as usize == ORIGINAL {
        return pair::<untouched::Socket>(shape.kind);
    }
    set_socket_size(shape.capacity as usize);
    pair::<ipc::Socket>(shape.kind)
}

/// What a number asks for an end's writing.
fn disabled(disposition: u32) -> Option<bool> {
    match disposition {
        1 => Some(true),
        2 => Some(false),
        _ => None,
    }
}

fn counted(count: ZxResult<usize>) -> i64 {
    count.map_or_else(status, |count| count as i64)
}

fn done(done: ZxResult) -> Answer {
    Answer::word(done.map_or_else(status, |()| 0))
}

fn read(socket: &impl Sockets, peek: bool, count: u64) -> Answer {
    let mut buffer = buffer(count);
    let word = counted(socket.read(peek, &mut buffer));
    Answer { buffer, ..Answer::word(word) }
}

/// A plain call that is one of a socket's own.
fn on_socket(socket: &impl Sockets, call: &Call) -> Answer {
    match *call {
        Call::Write { count, seed, .. } => Answer::word(counted(socket.write(&bytes(count, seed)))),
        Call::Read { count, .. } => read(socket, false, count),
        Call::Peek { count, .. } => read(socket, true, count),
        Call::SetDisposition { own, peer, .. } => done(socket.set_disposition(disabled(own), disabled(peer))),
        Call::Shutdown { read, write, .. } => done(socket.shutdown(read, write)),
        Call::SetReadThreshold { threshold, .. } => done(socket.set_read_threshold(threshold as usize)),
        Call::SetWriteThreshold { threshold, .. } => done(socket.set_write_threshold(threshold as usize)),
        Call::Thresholds { .. } => Answer::numbers(0, &socket.thresholds()),
        Call::Info { .. } => Answer::numbers(0, &socket.info()),
        _ => unreachable!("{call} is no call of a socket"),
    }
}

/// A look at both ends, unless they are closed, and at their waits.
fn look(ends: [Option<&impl Sockets>; 2], waits: &Waits, memory: Vec<u8>) -> Look {
    let packet = |Fired { source, trigger, observed, .. }| Packet { source, trigger, observed };
    Look {
        signals: ends.map(|end| end.map(|end| word_of(end.signal()))),
        infos: ends.map(|end| end.map(|end| end.info())),
        thresholds: ends.map(|end| end.map(|end| end.thresholds())),
        packets: waits.fired().map(packet).collect(),
        waits: waits.waiting().collect(),
        memory,
    }
}

/// A packet that was taken. The waits hold the original to a count of 1 and the
/// time 0.
fn packet(key: u64, trigger: u32, observed: u32) -> Answer {
    Answer::numbers(0, &[key, trigger.into(), observed.into(), 1, 0])
}

/// Two sockets and their waits.
struct Original<S> {
    ends: [Option<Arc<S>>; 2],
    waits: Waits,
}

fn pair<S: Sockets>(kind: u32) -> Box<dyn Side> {
    let (one, two) = S::create(kind).expect("a good kind");
    Box::new(Original { ends: [Some(one), Some(two)], waits: Waits::new() })
}

impl<S: Sockets> Original<S> {
    fn answer(&mut self, call: &Call) -> Answer {
        if *call == Call::Take {
            return match self.waits.take() {
                Ok((key, Fired { trigger, observed, .. })) => packet(key, trigger, observed),
                Err(status) => Answer::word(status),
            };
        }
        let end = (call.handle() as usize).wrapping_sub(1);
        let Some(Some(socket)) = self.ends.get(end) else {
            return Answer::refused(call, status(ZxError::BAD_HANDLE));
        };
        match *call {
            Call::Wait { handle, key, mask, edge } => {
                let object: Arc<dyn KernelObject> = socket.clone();
                let refused = self.waits.register((end, handle), &object, key, mask, edge).err();
                Answer::word(refused.unwrap_or(0))
            }
            Call::Cancel { handle, key } => {
                let removed = self.waits.cancel((end, handle), socket.id(), key);
                Answer::word(removed.map_or_else(|status| status, |removed| removed as i64))
            }
            Call::Close { .. } => {
                self.ends[end] = None;
                self.waits.end_closed(end);
                Answer::word(0)
            }
            _ => on_socket(&**socket, call),
        }
    }
}

impl<S: Sockets> Side for Original<S> {
    fn call(&mut self, call: &Call) -> Answer {
        let answer = self.answer(call);
        self.waits.count_fired();
        answer
    }

    fn look(&mut self) -> Look {
        look([self.ends[0].as_deref(), self.ends[1].as_deref()], &self.waits, Vec::new())
    }
}

/// A process with two handles and memory.
struct Process {
    machine: Machine,
}

impl Process {
    fn new(shape: &Shape, memory: Memory) -> Process {
        let Shape { kind, capacity, rights, .. } = *shape;
        let machine = Machine::with_memory(kind, capacity, rights, (memory.base, memory.length));
        let Ok(mut machine) = machine else { panic!("a good create") };
        let fill = Record::Fill { address: memory.base, bytes: memory.contents() };
        assert_eq!(machine.call(&fill), Ok(Done::Count(memory.length as u64)));
        Process { machine }
    }
}

/// The record of a call that a script can make.
fn record(call: &Call) -> Option<Record> {
    Some(match *call {
        Call::UserWrite(ref t) => Record::Write(t.clone()),
        Call::UserRead(ref t) => Record::Read(t.clone()),
        Call::UserSetDisposition { handle, own, peer } => Record::Disposition { handle, own, peer },
        Call::UserShutdown { handle, options } => Record::Shutdown { handle, options },
        Call::Wait { handle, key, mask, edge } => Record::Wait { handle, key, mask, edge },
        Call::Take => Record::Take,
        Call::Cancel { handle, key } => Record::Cancel { handle, key },
        Call::Close { handle } => Record::Close { handle },
        _ => return None,
    })
}

impl Side for Process {
    fn call(&mut self, call: &Call) -> Answer {
        if let Some(record) = record(call) {
            return match self.machine.call(&record) {
                Ok(Done::Packet { key, trigger, observed }) => packet(key, trigger, observed),
                answer => Answer::word(oracle::word(&answer)),
            };
        }
        let answer = match self.machine.socket(call.handle()) {
            Ok(socket) => on_socket(&*socket, call),
            Err(status) => Answer::refused(call, status),
        };
        self.machine.count_fired();
        answer
    }

    fn look(&mut self) -> Look {
        let ends = [1, 2].map(|handle| self.machine.socket(handle).ok());
        look([ends[0].as_deref(), ends[1].as_deref()], self.machine.waits(), self.machine.memory())
    }
}
