//! Stand-in for kernel_hal's user pointers: addresses into one slice.

use std::cell::{Cell, OnceCell, RefCell};

/// The errors that error.rs maps to statuses.
#[derive(Debug, Clone, Copy, Eq, PartialEq)]
pub enum Error {
    InvalidUtf8,
    InvalidPointer,
    BufferTooSmall,
    InvalidLength,
    InvalidVectorAddress,
}

/// User memory, one slice at a base address, with a note of what the running
/// call handed out through its pointers.
pub struct UserMemory {
    base: usize,
    bytes: RefCell<Vec<u8>>,
    delivered: RefCell<Vec<u8>>,
    count: Cell<Option<usize>>,
}

impl UserMemory {
    /// Memory of `length` bytes, all 0.
    pub fn new(base: usize, length: usize) -> Self {
        UserMemory {
            base,
            bytes: RefCell::new(vec![0; length]),
            delivered: RefCell::default(),
            count: Cell::new(None),
        }
    }

    /// The place of a range of user memory in the slice, if it lies in it.
    fn place(&self, address: usize, length: usize) -> Result<std::ops::Range<usize>, Error> {
        let start = address.checked_sub(self.base).ok_or(Error::InvalidPointer)?;
        let end = start.checked_add(length).ok_or(Error::InvalidPointer)?;
        if end <= self.bytes.borrow().len() {
            Ok(start..end)
        } else {
            Err(Error::InvalidPointer)
        }
    }

    /// Puts bytes into memory; a range that does not fit changes nothing.
    pub fn put(&self, address: usize, data: &[u8]) -> Result<(), Error> {
        if data.is_empty() {
            return Ok(());
        }
        let place = self.place(address, data.len())?;
        self.bytes.borrow_mut()[place].copy_from_slice(data);
        Ok(())
    }

    /// A copy of a range.
    pub fn get(&self, address: usize, length: usize) -> Result<Vec<u8>, Error> {
        if length == 0 {
            return Ok(Vec::new());
        }
        let place = self.place(address, length)?;
        Ok(self.bytes.borrow()[place].to_vec())
    }

    /// A copy of all of it.
    pub fn contents(&self) -> Vec<u8> {
        self.bytes.borrow().clone()
    }

    /// The bytes that the call before delivered, as they were handed out, and
    /// the count it answered, if any. Forgets both.
    pub fn take_notes(&self) -> (Vec<u8>, Option<usize>) {
        (self.delivered.take(), self.count.take())
    }
}

/// A user pointer that the kernel reads through.
pub struct UserInPtr<'m, T> {
    memory: &'m UserMemory,
    address: usize,
    copy: OnceCell<Vec<T>>,
}

impl<'m, T> UserInPtr<'m, T> {
    pub fn new(memory: &'m UserMemory, address: usize) -> Self {
        UserInPtr { memory, address, copy: OnceCell::new() }
    }

    pub fn is_null(&self) -> bool {
        self.address == 0
    }

    pub fn as_addr(&self) -> usize {
        self.address
    }
}

impl UserInPtr<'_, u8> {
    /// The bytes at the pointer, as they are at the first call.
    pub fn as_slice(&self, length: usize) -> Result<&[u8], Error> {
        let bytes = self.memory.get(self.address, length)?;
        Ok(self.copy.get_or_init(|| bytes))
    }
}

/// A user pointer that the kernel writes through.
pub struct UserOutPtr<'m, T> {
    memory: &'m UserMemory,
    address: usize,
    kind: std::marker::PhantomData<T>,
}

impl<'m, T> UserOutPtr<'m, T> {
    pub fn new(memory: &'m UserMemory, address: usize) -> Self {
        UserOutPtr { memory, address, kind: std::marker::PhantomData }
    }

    pub fn is_null(&self) -> bool {
        self.address == 0
    }

    pub fn as_addr(&self) -> usize {
        self.address
    }
}

impl UserOutPtr<'_, u8> {
    /// Puts bytes at the pointer.
    pub fn write_array(&mut self, data: &[u8]) -> Result<(), Error> {
        *self.memory.delivered.borrow_mut() = data.to_vec();
        self.memory.put(self.address, data)
    }
}

impl UserOutPtr<'_, usize> {
    /// Puts a count at the pointer, little-endian, unless it is null.
    pub fn write_if_not_null(&mut self, count: usize) -> Result<(), Error> {
        self.memory.count.set(Some(count));
        if self.is_null() {
            return Ok(());
        }
        self.memory.put(self.address, &count.to_le_bytes())
    }
}

impl UserOutPtr<'_, u32> {
    /// Puts a handle at the pointer. Only `sys_socket_create` uses it, which
    /// no script calls.
    pub fn write(&mut self, value: u32) -> Result<(), Error> {
        self.memory.put(self.address, &value.to_le_bytes())
    }
}
