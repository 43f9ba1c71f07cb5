//! How much stack a call uses: the stack below is painted, the call is made, and the deepest word
//! that lost its paint is looked for.

use std::thread;

/// The stack that is painted.
const PAINTED: usize = 4 << 20;

/// The stack of the thread that paints.
const STACK: usize = 16 << 20;

/// The words next to the frame at hand stay as they are.
const MARGIN: usize = 512;

const PAINT: u64 = 0x5a5a_a5a5_1234_8765;

/// The address of a local of a function called from here.
#[inline(never)]
fn frame() -> usize {
    let local = 0u8;
    std::hint::black_box(&local) as *const u8 as usize & !7
}

/// Paints the stack from `low` to `high`.
#[inline(never)]
fn paint(low: usize, high: usize) {
    for address in (low..high).step_by(8) {
        // SAFETY: the words lie in this thread's own stack, below every frame in use.
        unsafe { (address as *mut u64).write_volatile(PAINT) };
    }
}

/// The lowest word from `low` to `high` that lost its paint.
#[inline(never)]
fn deepest(low: usize, high: usize) -> usize {
    let mut address = low;
    // SAFETY: the words lie in this thread's own stack.
    while address < high && unsafe { (address as *const u64).read_volatile() } == PAINT {
        address += 8;
    }
    address
}

/// The bytes of stack that a call uses, the margin where it is less.
pub fn used(call: &mut (dyn FnMut() + Send)) -> usize {
    let measure = || {
        let top = frame();
        let (low, high) = (top - PAINTED, top - MARGIN);
        paint(low, high);
        call();
        top - deepest(low, high)
    };
    thread::scope(|scope| {
        let builder = thread::Builder::new().stack_size(STACK);
        let handle = builder.spawn_scoped(scope, measure).expect("a thread");
        handle.join().expect("the call returns")
    })
}
