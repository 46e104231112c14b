//! How much of the stack a call takes: it runs on a thread whose stack was painted, and the paint that is left is counted.

use crate::library;
use bench::generate::Case;
use bench::peer;
use bench::workload;
use std::ffi::c_void;

const SIZE: usize = 1 << 20;
const PAINT: u8 = 0xA5;

extern "C" {
    fn pthread_attr_init(attributes: *mut [u64; 16]) -> i32;
    fn pthread_attr_setstack(attributes: *mut [u64; 16], base: *mut c_void, size: usize) -> i32;
    fn pthread_create(
        thread: *mut usize,
        attributes: *const [u64; 16],
        start: extern "C" fn(*mut c_void) -> *mut c_void,
        argument: *mut c_void,
    ) -> i32;
    fn pthread_join(thread: usize, result: *mut *mut c_void) -> i32;
}

#[repr(align(4096))]
struct Painted([u8; SIZE]);

/// Calls the closure behind the pointer.
extern "C" fn start<F: FnMut()>(call: *mut c_void) -> *mut c_void {
    // SAFETY: `bytes_used` passes a pointer to its closure, which lives until the thread has ended.
    let call = unsafe { &mut *(call as *mut F) };
    call();
    std::ptr::null_mut()
}

/// Bytes of a fresh thread's stack that are written while it makes a call.
fn bytes_used<F: FnMut()>(mut call: F) -> usize {
    let mut stack: Box<Painted> = {
        let layout = std::alloc::Layout::new::<Painted>();
        // SAFETY: the allocation has the layout of `Painted`, every byte of which is written before it is read.
        unsafe {
            let place = std::alloc::alloc(layout) as *mut Painted;
            std::ptr::write_bytes(place as *mut u8, PAINT, SIZE);
            Box::from_raw(place)
        }
    };
    // SAFETY: the attributes are larger than pthread_attr_t, and the stack outlives the thread, which is joined.
    unsafe {
        let mut attributes = [0; 16];
        let mut thread = 0;
        assert_eq!(pthread_attr_init(&mut attributes), 0);
        assert_eq!(pthread_attr_setstack(&mut attributes, stack.0.as_mut_ptr() as *mut c_void, SIZE), 0);
        assert_eq!(pthread_create(&mut thread, &attributes, start::<F>, &mut call as *mut F as *mut c_void), 0);
        assert_eq!(pthread_join(thread, std::ptr::null_mut()), 0);
    }
    let left = stack.0.iter().position(|byte| *byte != PAINT).unwrap_or(SIZE);
    SIZE - left
}

/// A call's bytes above those of a thread that does nothing.
fn above_nothing<F: FnMut()>(call: F) -> usize {
    bytes_used(call).saturating_sub(bytes_used(|| {}))
}

/// What was called, and the bytes of stack that the second implementation and the proved crates take.
pub struct Stack {
    pub what: &'static str,
    pub peer: usize,
    pub ours: usize,
}

fn run_stack(what: &'static str, case: &Case, schedule: &[u8]) -> Stack {
    let mut memory = case.memory.clone();
    let mut log = vec![0; 16_384];
    let peer = above_nothing(|| {
        peer::run::run(case.fed(), &mut memory, schedule, &mut log);
    });
    let ours = above_nothing(|| {
        library::run(case.fed(), &mut memory, schedule, &mut log);
    });
    Stack { what, peer, ours }
}

/// The largest of many runs that meet every command, entry and number.
fn many_runs() -> Stack {
    let mut most = Stack { what: "run by schedule, the most of 2,000 random jobs", peer: 0, ours: 0 };
    for seed in 0..2000 {
        let mut random = bench::random::Random::new(seed << 20);
        let case = bench::generate::job(&mut random);
        let schedule = bench::generate::schedule(&mut random, &case, 400);
        let one = run_stack("", &case, &schedule);
        most.peer = most.peer.max(one.peer);
        most.ours = most.ours.max(one.ours);
    }
    most
}

fn serial_stack(what: &'static str, case: &Case) -> Stack {
    let mut memory = case.memory.clone();
    let peer = above_nothing(|| {
        peer::plain::plain(case.fed(), &mut memory);
    });
    let ours = above_nothing(|| {
        library::serial(case.fed(), &mut memory);
    });
    Stack { what, peer, ours }
}

fn scheduler_stack(case: &Case) -> Stack {
    let mut memory = case.memory.clone();
    let mut buffer = vec![0; 32_768];
    let peer = above_nothing(|| {
        peer::house::house(case.fed(), &mut memory, &mut buffer);
    });
    let ours = above_nothing(|| {
        library::scheduled(case.fed(), &mut memory, &mut buffer);
    });
    Stack { what: "built-in scheduler, four cores", peer, ours }
}

pub fn measured() -> Vec<Stack> {
    let (thieves, stolen) = workload::steals();
    let mut all = vec![run_stack("run by schedule, four cores with steals", &thieves, &stolen), many_runs()];
    all.push(scheduler_stack(&thieves));
    all.push(serial_stack("serial run, one deep", &workload::counted(10)));
    all.push(serial_stack("serial run, 32 deep (it ends by 26)", &workload::fibonacci(40)));
    all
}
