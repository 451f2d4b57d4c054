//! The floating-point mode that the archive assumes.

use std::arch::asm;

/// MXCSR as Rust and the archive assume it: round to nearest, subnormal numbers kept, exceptions masked.
const DEFAULT: u32 = 0x1f80;

/// The control word is the default while this lives. Afterwards it is what it was, its flags too: a
/// program whose C part was linked with -ffast-math, or that set another mode, gets the same answers
/// and finds its mode again. Flags that the call raises are dropped.
///
/// A function that makes one must not be inlined: a compiler may move its caller's arithmetic past a
/// change of the control word.
pub(crate) struct DefaultControl {
    before: u32,
}

impl DefaultControl {
    pub(crate) fn set() -> Self {
        let mut before = 0u32;
        // SAFETY: stores 32 bits into `before`.
        unsafe { asm!("stmxcsr [{}]", in(reg) &raw mut before, options(nostack, preserves_flags)) };
        load(DEFAULT);
        Self { before }
    }
}

impl Drop for DefaultControl {
    fn drop(&mut self) {
        load(self.before);
    }
}

/// Takes the default word, or one that the register held: no bit of it is reserved.
fn load(word: u32) {
    // SAFETY: loads 32 bits from `word`; nothing but the archive computes between `set` and `drop`.
    unsafe { asm!("ldmxcsr [{}]", in(reg) &raw const word, options(nostack)) };
}
