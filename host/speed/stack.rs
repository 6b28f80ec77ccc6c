// How deep a call goes into the stack: what lies below is painted, and the lowest changed byte is found afterwards.
use std::ptr;

/// How far down is painted; no call may go further.
const PAINTED: usize = 900 << 10;
/// What this function itself may use below its own frame, and so isn't painted.
const SPARED: usize = 1 << 10;
const STACK: usize = 4 << 20;
const PAINT: u8 = 0xa5;

/// Bytes of stack that a call uses, at least the spared ones.
pub fn depth(call: impl FnOnce() + Send) -> usize {
    std::thread::scope(|scope| {
        let thread = std::thread::Builder::new().stack_size(STACK);
        thread.spawn_scoped(scope, || painted(call)).expect("a thread").join().expect("a call that ends")
    })
}

#[inline(never)]
fn painted(call: impl FnOnce()) -> usize {
    let mark = 0u8;
    let here = ptr::from_ref(&mark).cast_mut();
    let low = here.wrapping_sub(PAINTED);
    // SAFETY: the bytes are of this thread's stack, which is four times as large, and lie below every frame in use.
    unsafe {
        for at in 0..PAINTED - SPARED {
            low.wrapping_add(at).write_volatile(PAINT);
        }
        call();
        let kept = (0..PAINTED - SPARED).take_while(|at| low.wrapping_add(*at).read_volatile() == PAINT).count();
        PAINTED - kept
    }
}
