//! How much of the stack a call takes: it is made on a stack of its own, and what it wrote there is looked for.

const STACK: usize = 1 << 20;
const UNTOUCHED: u8 = 0xA5;

#[cfg(target_arch = "x86_64")]
extern "C" fn enter(action: *mut &mut dyn FnMut()) {
    // SAFETY: `used` hands over a pointer to an action of its own.
    unsafe { (*action)() }
}

/// The bytes of stack that an action takes, on machines where it is known.
#[cfg(target_arch = "x86_64")]
pub fn used(action: &mut dyn FnMut()) -> Option<usize> {
    let mut stack = vec![UNTOUCHED; STACK];
    let mut action = action;
    let end = stack.as_mut_ptr() as usize + STACK;
    let top = end - end % 16;
    // SAFETY: `enter` is called on aligned memory that nobody else uses meanwhile, and the stack is set back after it.
    // A register that every function keeps holds the former stack.
    unsafe {
        std::arch::asm!(
            "xchg rsp, r12",
            "call {enter}",
            "mov rsp, r12",
            enter = sym enter,
            inout("r12") top => _,
            in("rdi") &raw mut action,
            clobber_abi("C"),
        );
    }
    stack.iter().position(|byte| *byte != UNTOUCHED).map(|place| STACK - place)
}

#[cfg(not(target_arch = "x86_64"))]
pub fn used(action: &mut dyn FnMut()) -> Option<usize> {
    action();
    None
}
