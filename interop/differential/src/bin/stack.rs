//! Measures how much stack the calls of the proved library use.
//!
//! Each call runs on a thread whose stack is memory of our own, filled with a
//! pattern. What the call has touched lies above the lowest word that changed.
//! A thread that makes no call has touched some of it too; that is taken off.

use std::ffi::{c_int, c_ulong, c_void};
use std::ptr;

use differential::inputs;

const STACK_WORDS: usize = 1 << 20;
const PATTERN: u64 = 0x5a3c_96e1_0f87_b42d;

/// A page: a thread's stack starts at a multiple of it.
#[derive(Clone, Copy)]
#[repr(C, align(4096))]
struct Page([u64; Page::WORDS]);

impl Page {
    const WORDS: usize = 512;
}

/// Room for the 56 bytes of `pthread_attr_t` on x86-64 Linux.
#[repr(C, align(8))]
struct Attributes([u8; 64]);

type Start = extern "C" fn(*mut c_void) -> *mut c_void;

unsafe extern "C" {
    fn pthread_attr_init(attributes: *mut Attributes) -> c_int;
    fn pthread_attr_setstack(
        attributes: *mut Attributes,
        stack: *mut c_void,
        bytes: usize,
    ) -> c_int;
    fn pthread_attr_destroy(attributes: *mut Attributes) -> c_int;
    fn pthread_create(
        thread: *mut c_ulong,
        attributes: *const Attributes,
        start: Start,
        argument: *mut c_void,
    ) -> c_int;
    fn pthread_join(thread: c_ulong, result: *mut *mut c_void) -> c_int;
}

/// What the thread runs.
type Call<'a> = &'a mut (dyn FnMut() + Send);

extern "C" fn start(call: *mut c_void) -> *mut c_void {
    // SAFETY: `touched` hands over a `Call` of its own and waits for the thread.
    let call = unsafe { &mut *call.cast::<Call<'_>>() };
    call();
    ptr::null_mut()
}

/// The bytes of its stack that a thread touches which makes this call.
fn touched(mut call: Call<'_>) -> usize {
    let mut stack = vec![Page([PATTERN; Page::WORDS]); STACK_WORDS / Page::WORDS];
    let mut attributes = Attributes([0; 64]);
    let mut thread = 0;
    // SAFETY: the attributes are initialised before they are used; the stack is
    // ours, aligned, and of the length that is said; it and `call` outlive the
    // thread, which is waited for.
    unsafe {
        assert_eq!(pthread_attr_init(&mut attributes), 0);
        let memory = stack.as_mut_ptr().cast();
        let set = pthread_attr_setstack(&mut attributes, memory, 8 * STACK_WORDS);
        assert_eq!(set, 0);
        let argument = (&raw mut call).cast();
        assert_eq!(pthread_create(&mut thread, &attributes, start, argument), 0);
        assert_eq!(pthread_join(thread, ptr::null_mut()), 0);
        assert_eq!(pthread_attr_destroy(&mut attributes), 0);
    }
    let words = stack.iter().flat_map(|page| page.0);
    let untouched = words.take_while(|&word| word == PATTERN).count();
    assert!(untouched > 0, "the stack was too small to measure");
    8 * (STACK_WORDS - untouched)
}

/// Searches that end soon, by their names.
const SEARCHES: [&str; 5] = [
    "search, one core, D 10",
    "search, three cores, unordered, D 32",
    "search, 16 goals, 510 moves, none, D 32",
    "search, 127 methods, none, D 11",
    "search, 23 rows, none, D 32",
];

/// Prints how much stack a call uses, beyond what a thread without a call does,
/// and its answer: number and place.
fn measure(name: &str, mut call: impl FnMut() -> (u32, u32) + Send) {
    let idle = touched(&mut || {});
    let mut told = (u32::MAX, 0);
    let bytes = touched(&mut || told = call()) - idle;
    let (number, place) = told;
    println!("{name:<62} {bytes:>9} bytes; answered {number} {place}");
}

fn main() {
    for input in inputs::checks() {
        measure(&input.name, || {
            let answer = liropuva::check_order_answer(&input.shop, &input.order);
            (answer.number, answer.place)
        });
    }
    for input in inputs::replays() {
        let mut room = vec![0; input.trace.len()];
        measure(&input.name, || {
            let (shop, order, trace) = (&input.shop, &input.order, &input.trace);
            let answer = liropuva::replay_answer(shop, order, trace, &mut room);
            (answer.number, answer.place)
        });
    }
    for input in inputs::joins() {
        let mut room = vec![0; liropuva::JOIN_ROOM];
        measure(&input.name, || {
            let (shop, first, second) = (&input.shop, &input.first, &input.second);
            let answer = liropuva::join_answer(shop, first, second, &mut room);
            (answer.number, answer.place)
        });
    }
    let mut searches = inputs::searches();
    searches.retain(|input| SEARCHES.contains(&input.name.as_str()));
    assert_eq!(searches.len(), SEARCHES.len(), "a search has another name");
    searches.push(inputs::deepest());
    for input in searches {
        let mut room = [0; liropuva::SEARCH_ROOM];
        measure(&input.name, || {
            let (shop, order) = (&input.shop, &input.order);
            let answer = liropuva::search_answer(shop, order, input.depth, &mut room);
            (answer.number, answer.place)
        });
    }
}
