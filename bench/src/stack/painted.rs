//! A stack for calls to be made on, painted with one byte: what is painted over in the end was taken by one of them.

use crate::stations::Aligned;
use std::arch::asm;

/// Far more than a call takes: one that took more than this would write elsewhere.
const SIZE: usize = 64 * 1024;

pub struct Stack {
    memory: Box<Aligned<[u8; SIZE]>>,
    paint: u8,
    /// The numbers that the calls have answered since it was painted, as bits.
    answers: u32,
}

impl Stack {
    pub fn new() -> Stack {
        Stack {
            memory: Box::new(Aligned([0; SIZE])),
            paint: 0,
            answers: 0,
        }
    }

    pub fn paint(&mut self, paint: u8) {
        self.memory.0.fill(paint);
        self.paint = paint;
        self.answers = 0;
    }

    /// Calls a function on this stack, with nothing between: the bytes that it takes are all there is on it.
    ///
    /// # Safety
    ///
    /// The words are the function's arguments, of which each is a number or an address; it gives a `u32`, and all that
    /// it asks of its arguments holds.
    pub unsafe fn call(&mut self, function: *const (), words: &[usize]) -> u32 {
        let (in_registers, on_stack) = words.split_at(words.len().min(REGISTERS));
        let mut registers = [0; REGISTERS];
        registers[..in_registers.len()].copy_from_slice(in_registers);
        // The address of a stack is a multiple of 16 where a call is made: an odd word takes the room of two.
        let place = SIZE - 16 * on_stack.len().div_ceil(2);
        for (bytes, word) in self.memory.0[place..].chunks_exact_mut(8).zip(on_stack) {
            bytes.copy_from_slice(&word.to_ne_bytes());
        }
        let top = self.memory.0.as_mut_ptr().wrapping_add(place);
        // SAFETY: the bytes below this address are ours alone, and enough; the address is a multiple of 16, and the
        // words lie where the function looks for them. The rest is the caller's.
        let answer = unsafe { call_on(top, function, registers) };
        self.answers |= 1 << answer;
        answer
    }

    /// The most bytes that a call has taken: from the top down to the lowest that is painted over.
    pub fn taken(&self) -> usize {
        let painted_over = |&byte: &u8| byte != self.paint;
        let untouched = self.memory.0.iter().position(painted_over);
        let taken = SIZE - untouched.unwrap_or(SIZE);
        assert!(taken < SIZE / 2, "a stack of {SIZE} bytes may be too small");
        taken
    }

    pub fn has_answered(&self, number: u32) -> bool {
        self.answers & (1 << number) != 0
    }
}

/// How many words go in registers.
#[cfg(target_arch = "x86_64")]
const REGISTERS: usize = 6;
#[cfg(target_arch = "aarch64")]
const REGISTERS: usize = 8;

/// Switches to another stack, calls a function and switches back.
///
/// # Safety
///
/// The stack's address is a multiple of 16, and there is room enough below it. The words are the function's arguments,
/// with those that lie at that address where it takes more; it gives a `u32`, and all that it asks of its arguments
/// holds.
#[cfg(target_arch = "x86_64")]
unsafe fn call_on(stack: *mut u8, function: *const (), words: [usize; REGISTERS]) -> u32 {
    let answer: u32;
    // SAFETY: a function leaves r12 as it was, so our own stack is back behind the call. The rest is the caller's.
    unsafe {
        asm!(
            "mov r12, rsp",
            "mov rsp, {stack}",
            "call {function}",
            "mov rsp, r12",
            stack = in(reg) stack,
            function = in(reg) function,
            in("rdi") words[0],
            in("rsi") words[1],
            in("rdx") words[2],
            in("rcx") words[3],
            in("r8") words[4],
            in("r9") words[5],
            out("eax") answer,
            out("r12") _,
            clobber_abi("C"),
        );
    }
    answer
}

/// The same for the other processor.
///
/// # Safety
///
/// As above.
#[cfg(target_arch = "aarch64")]
unsafe fn call_on(stack: *mut u8, function: *const (), words: [usize; REGISTERS]) -> u32 {
    let answer: usize;
    // SAFETY: a function leaves x20 as it was, so our own stack is back behind the call. The rest is the caller's.
    unsafe {
        asm!(
            "mov x20, sp",
            "mov sp, {stack}",
            "blr {function}",
            "mov sp, x20",
            stack = in(reg) stack,
            function = in(reg) function,
            inout("x0") words[0] => answer,
            in("x1") words[1],
            in("x2") words[2],
            in("x3") words[3],
            in("x4") words[4],
            in("x5") words[5],
            in("x6") words[6],
            in("x7") words[7],
            out("x20") _,
            clobber_abi("C"),
        );
    }
    answer as u32
}
