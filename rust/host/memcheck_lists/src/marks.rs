//! Requests to memcheck. It keeps a mark for each bit of memory and of each register: defined or undefined.
//! A value that is computed from undefined bits is undefined, and memcheck reports each conditional jump and
//! each address that is.

use std::arch::asm;

// The numbers of valgrind.h and memcheck.h.
const RUNNING_ON_VALGRIND: usize = 0x1001;
const MAKE_MEM_UNDEFINED: usize = 0x4d43_0001;
const CHECK_MEM_IS_DEFINED: usize = 0x4d43_0005;
const GET_VBITS: usize = 0x4d43_0008;

/// One request: what valgrind answers, and 0 without it.
fn request(number: usize, arguments: [usize; 3]) -> usize {
    let [first, second, third] = arguments;
    let words = [number, first, second, third, 0, 0];
    let answer;
    // SAFETY: these instructions leave every register as it was: the rotations are by 128 bits in all. Valgrind
    // knows them, reads the six words behind rax and answers in rdx. Every request here changes marks alone, or
    // writes marks into memory that its caller lends.
    unsafe {
        asm!(
            "rol rdi, 3",
            "rol rdi, 13",
            "rol rdi, 61",
            "rol rdi, 51",
            "xchg rbx, rbx",
            in("rax") words.as_ptr(),
            inout("rdx") 0usize => answer,
            options(nostack),
        );
    }
    answer
}

/// Whether valgrind runs this program.
pub fn on_valgrind() -> bool {
    request(RUNNING_ON_VALGRIND, [0; 3]) != 0
}

/// Marks what the slice holds as undefined.
pub fn make_undefined<T>(slice: &mut [T]) {
    request(MAKE_MEM_UNDEFINED, [slice.as_mut_ptr() as usize, size_of_val(slice), 0]);
}

/// Whether all that the slice holds is defined; memcheck reports it where it is not.
pub fn is_defined<T>(slice: &[T]) -> bool {
    request(CHECK_MEM_IS_DEFINED, [slice.as_ptr() as usize, size_of_val(slice), 0]) == 0
}

/// How many of the bytes are undefined in every bit.
pub fn undefined_bytes(bytes: &[u8]) -> usize {
    let mut marks = vec![0u8; bytes.len()];
    let answer = request(GET_VBITS, [bytes.as_ptr() as usize, marks.as_mut_ptr() as usize, bytes.len()]);
    assert!(bytes.is_empty() || answer == 1, "memcheck has no marks of these bytes");
    marks.iter().filter(|mark| **mark == 0xff).count()
}
