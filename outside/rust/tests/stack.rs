//! The stack that the calls need, at most what `tour_model.h` says: each call on
//! a stack of its own, filled with a pattern, from which its depth is read.

#![cfg(feature = "portal")]

use std::ffi::{c_int, c_void};
use std::ptr::{addr_of, null_mut};

use outside::fence::{Fenced, Flush};
use outside::ffi;
use outside::generate::cases::{Case, Source};
use outside::generate::describe::Layout;
use outside::generate::fixed::{full_instance, full_members};
use outside::generate::random::Random;
use outside::inputs::ROWS;

/// Room for pthread_attr_t.
#[repr(C)]
struct Attributes([u64; 16]);

extern "C" {
    fn pthread_attr_init(attributes: *mut Attributes) -> c_int;
    fn pthread_attr_setstack(attributes: *mut Attributes, at: *mut c_void, size: usize) -> c_int;
    fn pthread_create(
        thread: *mut usize,
        attributes: *const Attributes,
        run: extern "C" fn(*mut c_void) -> *mut c_void,
        job: *mut c_void,
    ) -> c_int;
    fn pthread_join(thread: usize, result: *mut *mut c_void) -> c_int;
}

/// More than any call needs, and what a thread has for itself.
const STACK: usize = 192 * 1024;
const PATTERN: u8 = 0xa5;

struct Job<'c> {
    case: &'c Case,
    buffer: Vec<u8>,
    packed: u64,
    /// An address in the frame of the caller.
    top: usize,
}

extern "C" fn run(job: *mut c_void) -> *mut c_void {
    let frame = 0u8;
    let job = unsafe { &mut *job.cast::<Job>() };
    job.top = addr_of!(frame) as usize;
    job.packed = ffi::call(job.case, job.case.images(), &mut job.buffer);
    null_mut()
}

/// Bytes of stack that the library's call of the case uses.
fn depth(case: &Case) -> usize {
    let mut stack = Fenced::buffer(&[PATTERN; STACK], Flush::Start);
    let mut job = Job {
        case,
        buffer: case.buffer().to_vec(),
        packed: 0,
        top: 0,
    };
    let mut attributes = Attributes([0; 16]);
    let mut thread = 0;
    unsafe {
        assert_eq!(pthread_attr_init(&mut attributes), 0);
        let at = stack.bytes_mut().as_mut_ptr().cast();
        assert_eq!(pthread_attr_setstack(&mut attributes, at, STACK), 0);
        let job = std::ptr::from_mut(&mut job).cast();
        assert_eq!(pthread_create(&mut thread, &attributes, run, job), 0);
        assert_eq!(pthread_join(thread, null_mut()), 0);
    }
    assert_eq!(job.packed, case.reference().1.packed);
    let bytes = stack.bytes();
    let lowest = bytes.iter().position(|&byte| byte != PATTERN);
    job.top - bytes.as_ptr() as usize - lowest.expect("a frame")
}

/// The number that the header gives a name.
fn stated(name: &str) -> usize {
    let header = include_str!("../../c/tour_model.h");
    let mut lines = header.lines().map(|line| line.split_whitespace());
    lines
        .find_map(|mut words| {
            let named = words.next() == Some("#define") && words.next() == Some(name);
            named.then(|| words.next())?
        })
        .and_then(|number| number.parse().ok())
        .unwrap_or_else(|| panic!("tour_model.h does not define {name}"))
}

#[test]
fn calls_keep_to_the_stated_stack() {
    let (model, instance) = full_instance();
    let largest_walk = Case::Walk {
        model: model.encode(&Layout::plain()).to_bytes(),
        instance: instance.encode(&mut Random::new(1)).to_bytes(),
        place: model.place(6, 0),
        path: 0,
        node: 0,
        buffer: vec![0; 4 * (1 + 1024 + 2048)],
    };
    let (model, members) = full_members();
    let largest_members = Case::Members {
        model: model.encode(&Layout::plain()).to_bytes(),
        members: members.encode().to_bytes(),
    };
    let mut source = Source::new(7);
    let random = std::iter::repeat_with(|| source.next_case().0).take(1000);
    let inputs = ROWS.iter().map(|row| (row.make)());
    let mut deepest = [0; 4];
    let largest = [largest_walk, largest_members];
    for case in inputs.chain(largest).chain(random) {
        let call = match case {
            Case::Model { .. } => 0,
            Case::Instance { .. } => 1,
            Case::Walk { .. } => 2,
            Case::Members { .. } => 3,
        };
        deepest[call] = depth(&case).max(deepest[call]);
    }
    println!("bytes of stack: model check, instance check, walk, members check: {deepest:?}");
    let names = [
        "TOUR_STACK_MODEL",
        "TOUR_STACK_INSTANCE",
        "TOUR_STACK_WALK",
        "TOUR_STACK_MEMBERS",
    ];
    for (name, depth) in names.iter().zip(deepest) {
        assert!(depth <= stated(name), "{name}: a call uses {depth} bytes");
        assert!(stated(name) < 65536);
    }
}
