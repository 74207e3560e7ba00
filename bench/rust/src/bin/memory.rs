//! Counts the memory of one call of each side: `memory KIND OPTIONS_FILE INPUT_FILE [ROOM]`. Prints
//! a line for each figure:
//!
//! - `input`: bytes of the heap that the chunks or the tree hold, as the Rust takes them;
//! - `heap`: the most bytes of the heap that are held during the Rust's call, the input included;
//! - `rust_stack`, `port_stack`: bytes of stack that a call touches;
//! - `port_heap`: as `heap` without the input, for the port.
//!
//! Bytes of the heap are those asked for; what the allocator adds is not counted.
use bench::{Buffers, Case, Input, words};
use oracle::build;
use oracle::stored::{self, Alphabet};
use std::alloc::{GlobalAlloc, Layout, System};
use std::arch::asm;
use std::hint::black_box;
use std::sync::atomic::{AtomicUsize, Ordering::Relaxed};

struct Counting;

static HELD: AtomicUsize = AtomicUsize::new(0);
static MOST: AtomicUsize = AtomicUsize::new(0);

unsafe impl GlobalAlloc for Counting {
    unsafe fn alloc(&self, layout: Layout) -> *mut u8 {
        let held = HELD.fetch_add(layout.size(), Relaxed) + layout.size();
        MOST.fetch_max(held, Relaxed);
        unsafe { System.alloc(layout) }
    }

    unsafe fn dealloc(&self, place: *mut u8, layout: Layout) {
        HELD.fetch_sub(layout.size(), Relaxed);
        unsafe { System.dealloc(place, layout) }
    }

    // As if every block grew in its place: the old and the new one are not counted together.
    unsafe fn realloc(&self, place: *mut u8, layout: Layout, size: usize) -> *mut u8 {
        HELD.fetch_sub(layout.size(), Relaxed);
        let held = HELD.fetch_add(size, Relaxed) + size;
        MOST.fetch_max(held, Relaxed);
        unsafe { System.realloc(place, layout, size) }
    }
}

#[global_allocator]
static ALLOCATOR: Counting = Counting;

/// The most that is held while something is done, above what is held before.
fn most_during(what: impl FnOnce()) -> usize {
    let before = HELD.load(Relaxed);
    MOST.store(before, Relaxed);
    what();
    MOST.load(Relaxed) - before
}

/// Bytes of the stack on which calls are made here.
const STACK: usize = 1 << 20;
const UNTOUCHED: u8 = 0xa5;

/// Bytes of stack that a call touches: it is made on a stack of its own, filled beforehand.
fn stack_during<T>(call: extern "C" fn(*mut T), with: &mut T) -> usize {
    let mut stack = vec![UNTOUCHED; STACK];
    let top = (stack.as_mut_ptr() as usize + STACK) & !15;
    unsafe {
        asm!(
            "mov r12, rsp",
            "mov rsp, {top}",
            "call {call}",
            "mov rsp, r12",
            top = in(reg) top,
            call = in(reg) call,
            in("rdi") with as *mut T,
            out("r12") _,
            clobber_abi("C"),
        );
    }
    STACK - stack.iter().take_while(|byte| **byte == UNTOUCHED).count()
}

struct Call<'a> {
    case: &'a Case,
    buffers: Buffers,
}

extern "C" fn nothing(call: *mut Call) {
    black_box(call);
}

extern "C" fn port(call: *mut Call) {
    let Call { case, buffers } = unsafe { &mut *call };
    black_box(case.port(buffers)).unwrap();
}

extern "C" fn rust(call: *mut Call) {
    let case = unsafe { (*call).case };
    black_box(case.rust(case.given()));
}

/// Bytes of the heap that the input holds, as the Rust takes it.
fn held_by_input(case: &Case) -> usize {
    let before = HELD.load(Relaxed);
    match &case.input {
        Input::List(_) => {
            let given = black_box(case.given());
            let held = HELD.load(Relaxed) - before;
            drop(given);
            held
        }
        Input::Tree(_) => {
            let list = stored::read_tree(&case.stored, Alphabet::Ascii).unwrap();
            let before = HELD.load(Relaxed);
            let tree = black_box(build::tree(&list));
            let held = HELD.load(Relaxed) - before;
            drop(tree);
            held
        }
    }
}

fn main() {
    let words = words();
    let room = words.get(3).map(|word| word.parse().unwrap());
    let case = &Case::read(&words[0], &words[1], &words[2], room);
    let input = held_by_input(case);
    let given = case.given();
    // Chunks are counted as the input and let go by the call; a tree stays.
    let heap = input + most_during(|| drop(black_box(case.rust(given))));
    let mut call = Call {
        case,
        buffers: case.buffers(),
    };
    let port_heap = most_during(|| {
        black_box(case.port(&mut call.buffers)).unwrap();
    });
    let empty = stack_during(nothing, &mut call);
    let rust_stack = stack_during(rust, &mut call) - empty;
    let port_stack = stack_during(port, &mut call) - empty;
    println!("input {input}\nheap {heap}\nport_heap {port_heap}");
    println!("rust_stack {rust_stack}\nport_stack {port_stack}");
}
