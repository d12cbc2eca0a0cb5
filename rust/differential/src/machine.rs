//! A pair of the original's sockets with what documents 01 and 02 (i) add around
//! it: handles 1 and 2 with rights words, 128 places for waits, the edge byte,
//! taking without blocking, the number that a cancel removes, and one slice of
//! user memory.

use crate::record::{Record, Transfer};
use crate::sockets::Sockets;
use crate::values::{rights_of, status, word_of};
use crate::waits::{Fired, NamedEnd, Waits};
use std::sync::Arc;
use zcore::capacity::{set_socket_size, ORIGINAL};
use zcore::ipc::Socket;
use zcore::object::{Handle, HandleValue, KernelObject, Rights, INVALID_HANDLE};
use zcore::syscall::Syscall;
use zcore::task::{Job, Process, Thread};
use zcore::user::{UserInPtr, UserMemory, UserOutPtr};
use zcore::{ZxError, ZxResult};

/// Entries of each ring and each length table of the script program.
pub const RING: usize = 4096;
/// User memory of the script program.
pub const BASE: u64 = 65536;
pub const MEMORY: usize = 4096;

/// What a call that was done answers.
#[derive(Clone, Debug, PartialEq)]
pub enum Done {
    Nothing,
    Count(u64),
    Delivered(Vec<u8>),
    Info([u64; 6]),
    Packet { key: u64, trigger: u32, observed: u32 },
}

/// A done call's answer or a refused one's status.
pub type Answer = Result<Done, i64>;

/// A pair, its port and its process.
pub struct Machine {
    memory: UserMemory,
    thread: Arc<Thread>,
    handles: [HandleValue; 2],
    waits: Waits,
}

impl Machine {
    /// Document 01's create over rings and tables of 4096 entries, with the
    /// script program's memory.
    pub fn create(kind: u32, capacity: u32, rights: [u8; 2]) -> Result<Machine, i64> {
        if capacity as usize > RING {
            return Err(status(ZxError::INVALID_ARGS));
        }
        Machine::with_memory(kind, capacity, rights, (BASE, MEMORY))
    }

    /// The same over longer rings and tables, with memory of some length at
    /// some base.
    pub fn with_memory(
        kind: u32,
        capacity: u32,
        rights: [u8; 2],
        (base, length): (u64, usize),
    ) -> Result<Machine, i64> {
        let capacity = capacity as usize;
        let good = kind <= 1 && (1..=ORIGINAL).contains(&capacity);
        if !good || rights.iter().any(|word| *word > 7) {
            return Err(status(ZxError::INVALID_ARGS));
        }
        set_socket_size(capacity);
        let (end1, end2) = Socket::create(kind).map_err(status)?;
        let process = Process::create(&Job::root(), "script").map_err(status)?;
        process.vmar().map_memory(base as usize, length);
        let handles = [
            process.add_handle(Handle::new(end1, rights_of(rights[0]))),
            process.add_handle(Handle::new(end2, rights_of(rights[1]))),
        ];
        Ok(Machine {
            memory: UserMemory::new(base as usize, length),
            thread: Thread::new(process),
            handles,
            waits: Waits::new(),
        })
    }

    /// Makes one call, or fills memory. A create has no place here.
    pub fn call(&mut self, record: &Record) -> Answer {
        let answer = match record {
            Record::Create { .. } => panic!("a second create stops the script"),
            Record::Write(transfer) => self.write(transfer),
            Record::Read(transfer) => self.read(transfer),
            Record::Disposition { handle, own, peer } => {
                nothing(self.syscall().sys_socket_set_disposition(self.handle(*handle), *own, *peer))
            }
            Record::Shutdown { handle, options } => {
                nothing(self.syscall().sys_socket_shutdown(self.handle(*handle), *options))
            }
            Record::ReadThreshold { handle, threshold } => {
                self.on_socket(*handle, |socket| nothing(socket.set_read_threshold(*threshold as usize)))
            }
            Record::WriteThreshold { handle, threshold } => {
                self.on_socket(*handle, |socket| nothing(socket.set_write_threshold(*threshold as usize)))
            }
            Record::Info { handle } => self.on_socket(*handle, |socket| Ok(Done::Info(socket.info()))),
            Record::Close { handle } => self.close(*handle),
            Record::Wait { handle, key, mask, edge } => self.wait(*handle, *key, *mask, *edge),
            Record::Take => self.waits.take().map(|(key, Fired { trigger, observed, .. })| Done::Packet {
                key,
                trigger,
                observed,
            }),
            Record::Fill { address, bytes } => self.fill(*address, bytes),
            Record::Cancel { handle, key } => self.cancel(*handle, *key),
        };
        self.count_fired();
        answer
    }

    /// To be called after a call that was made on a socket directly.
    pub fn count_fired(&mut self) {
        self.waits.count_fired();
    }

    /// The signal word of an end, 0 or 1, unless it is closed.
    pub fn word(&self, end: usize) -> Option<u32> {
        let process = self.thread.proc();
        let object = process.get_dyn_object_with_rights(self.handles[end], Rights::empty());
        object.ok().map(|object| word_of(object.signal()))
    }

    /// The info record of an end, 0 or 1, unless it is closed.
    pub fn info(&self, end: usize) -> Option<[u64; 6]> {
        let socket = self.thread.proc().get_object::<Socket>(self.handles[end]);
        socket.ok().map(|socket| socket.info())
    }

    /// All of user memory.
    pub fn memory(&self) -> Vec<u8> {
        self.memory.contents()
    }

    /// The waits and packets.
    pub fn waits(&self) -> &Waits {
        &self.waits
    }

    fn syscall(&self) -> Syscall<'_> {
        Syscall { thread: &self.thread }
    }

    /// The process's handle for a script's handle.
    fn handle(&self, handle: u32) -> HandleValue {
        match handle {
            1 => self.handles[0],
            2 => self.handles[1],
            _ => INVALID_HANDLE,
        }
    }

    /// The socket that a script's handle names.
    pub fn socket(&self, handle: u32) -> Result<Arc<Socket>, i64> {
        self.thread.proc().get_object::<Socket>(self.handle(handle)).map_err(status)
    }

    fn on_socket(&self, handle: u32, call: impl FnOnce(&Socket) -> Answer) -> Answer {
        call(&*self.socket(handle)?)
    }

    fn write(&self, arguments: &Transfer) -> Answer {
        let Transfer { handle, options, address, count, count_at } = *arguments;
        let bytes = UserInPtr::new(&self.memory, address as usize);
        let actual = UserOutPtr::new(&self.memory, count_at as usize);
        let done =
            self.syscall().sys_socket_write(self.handle(handle), options, bytes, count as usize, actual);
        let (_, count) = self.memory.take_notes();
        done.map_err(status)?;
        Ok(Done::Count(count.expect("a done write has a count") as u64))
    }

    fn read(&self, arguments: &Transfer) -> Answer {
        let Transfer { handle, options, address, count, count_at } = *arguments;
        let bytes = UserOutPtr::new(&self.memory, address as usize);
        let actual = UserOutPtr::new(&self.memory, count_at as usize);
        let done =
            self.syscall().sys_socket_read(self.handle(handle), options, bytes, count as usize, actual);
        let (delivered, count) = self.memory.take_notes();
        done.map_err(status)?;
        assert_eq!(count, Some(delivered.len()), "a done read counts what it delivers");
        Ok(Done::Delivered(delivered))
    }

    /// Closing drops the process's handle, which is the only one.
    fn close(&mut self, handle: u32) -> Answer {
        let value = self.handle(handle);
        drop(self.thread.proc().remove_handle(value).map_err(status)?);
        self.waits.end_closed(handle as usize - 1);
        Ok(Done::Nothing)
    }

    fn wait(&mut self, handle: u32, key: u64, mask: u32, edge: u8) -> Answer {
        let (end, object) = self.object(handle)?;
        self.waits.register(end, &object, key, mask, edge)?;
        Ok(Done::Nothing)
    }

    /// A closed end is no handle any more, so the port is not asked.
    fn cancel(&mut self, handle: u32, key: u64) -> Answer {
        let (end, object) = self.object(handle)?;
        Ok(Done::Count(self.waits.cancel(end, object.id(), key)?))
    }

    /// The end with the process's handle for it, and its object.
    fn object(&self, handle: u32) -> Result<(NamedEnd, Arc<dyn KernelObject>), i64> {
        let value = self.handle(handle);
        let (object, _) = self.thread.proc().get_dyn_object_and_rights(value).map_err(status)?;
        Ok(((handle as usize - 1, value), object))
    }

    fn fill(&self, address: u64, bytes: &[u8]) -> Answer {
        let put = self.memory.put(address as usize, bytes);
        put.map_err(|error| status(error.into()))?;
        Ok(Done::Count(bytes.len() as u64))
    }
}

fn nothing(done: ZxResult) -> Answer {
    done.map(|()| Done::Nothing).map_err(status)
}
