//! How deep a call goes: it runs on a stack of its own that was filled before, and the lowest byte that changed says.
use std::arch::asm;

/// Words of the stack, and what each is filled with.
const WORDS: usize = 16 * 1024;
const FILL: u64 = 0xc3c3_c3c3_c3c3_c3c3;

/// A stack that calls run on.
pub struct Stack {
    words: Vec<u64>,
    empty: usize,
}

extern "C" fn enter<F: FnMut()>(call: *mut F) {
    // SAFETY: `call` is the closure that `run` holds for the whole call
    unsafe { (*call)() }
}

impl Stack {
    pub fn new() -> Self {
        let mut stack = Stack { words: vec![FILL; WORDS], empty: 0 };
        stack.empty = stack.run(|| {});
        stack
    }

    /// Runs a call that does not panic, and says how many bytes it used, beyond those of an empty one.
    pub fn run<F: FnMut()>(&mut self, mut call: F) -> usize {
        let top = (self.words.as_mut_ptr() as usize + 8 * WORDS) & !15;
        // SAFETY: the stack's words are this call's alone; r12 keeps the old stack over the call, which preserves it
        unsafe {
            asm!(
                "mov r12, rsp",
                "mov rsp, {top}",
                "call {enter}",
                "mov rsp, r12",
                top = in(reg) top,
                enter = in(reg) enter::<F> as extern "C" fn(*mut F) as usize,
                inout("rdi") &raw mut call => _,
                out("r12") _,
                clobber_abi("C"),
            );
        }
        let untouched = self.words.iter().take_while(|&&w| w == FILL).count();
        self.words[untouched..].fill(FILL);
        (8 * (WORDS - untouched)).saturating_sub(self.empty)
    }
}
