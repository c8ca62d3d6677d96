//! Bytes of stack that each call uses, beside the header's figure. The stack below the call is filled with a pattern;
//! the lowest byte that the call altered tells how deep it went. Done with two patterns, since a call may write the
//! pattern itself. A measurement reaches down from the stack pointer just before the call instruction: it has the
//! return address, and nothing of the caller.

use crate::reference::make::{bundle, id, Ev};
use crate::reference::{CORD_BYTES, EVENT, STORE};
use crate::{shapes, unit};

/// What a call may use.
const BUDGET: usize = 49_152;
/// The bytes filled, and the size of the stack of which they are a part.
const DEEP: usize = 1 << 20;
const THREAD: usize = 4 << 20;
const HEADER: &str = include_str!("../../include/pelchunda.h");

// Fills, calls and searches, all with the stack pointer where the call finds it: with functions of Rust their frames
// would hide some bytes. It is lent the function, 10 words of arguments, the pattern, and the place for the depth.
core::arch::global_asm!(
    ".globl call_and_measure",
    "call_and_measure:",
    "push %rbx",
    "push %r12",
    "push %r13",
    "push %r14",
    "push %r15",
    "mov %rdi, %r13",
    "mov %rsi, %r14",
    "mov %edx, %ebx",
    "mov %rcx, %r12",
    // The seventh argument to the tenth; the stack pointer is then a multiple of 16.
    "push 72(%r14)",
    "push 64(%r14)",
    "push 56(%r14)",
    "push 48(%r14)",
    "mov %ebx, %eax",
    "lea -{deep}(%rsp), %rdi",
    "mov ${deep}, %ecx",
    "rep stosb",
    "mov 0(%r14), %rdi",
    "mov 8(%r14), %rsi",
    "mov 16(%r14), %rdx",
    "mov 24(%r14), %rcx",
    "mov 32(%r14), %r8",
    "mov 40(%r14), %r9",
    "call *%r13",
    "mov %eax, %edx",
    // The search ends behind the lowest byte altered, with the number of those above it in rcx.
    "mov %ebx, %eax",
    "lea -{deep}(%rsp), %rdi",
    "mov ${deep}, %ecx",
    "repe scasb",
    "inc %rcx",
    "mov %rcx, (%r12)",
    "mov %edx, %eax",
    "add $32, %rsp",
    "pop %r15",
    "pop %r14",
    "pop %r13",
    "pop %r12",
    "pop %rbx",
    "ret",
    deep = const DEEP,
    options(att_syntax)
);

extern "C" {
    fn call_and_measure(function: *const (), words: *const [usize; 10], pattern: u8, depth: *mut usize) -> u8;
}

/// The depth of a call that answers 0, or the version. The count it is lent is set first, since the call before may have
/// altered it.
fn depth(name: &str, count: *mut usize, before: usize, list: &[usize]) -> usize {
    let mut words = [0; 10];
    let answer = if name == "version" { unit::version() as u8 } else { 0 };
    words[..list.len()].copy_from_slice(list);
    let depths = [0xa5, 0x5a].map(|pattern| {
        let mut depth = 0;
        // SAFETY: `depths` lists words that fit the call's parameters. The bytes filled lie below every frame in use,
        // and this thread's stack has room for them.
        let number = unsafe {
            count.write(before);
            call_and_measure(unit::address(name), &words, pattern, &mut depth)
        };
        assert_eq!(number, answer, "{name} refuses");
        depth
    });
    depths[0].max(depths[1])
}

/// A slice's address and length, as a call is lent it.
fn lent(bytes: &mut [u8]) -> [usize; 2] {
    [bytes.as_mut_ptr() as usize, bytes.len()]
}

/// The depth of each call with a set of 256 events; a call that only reads the store finds so many held. Each writes
/// into the store what stands there already.
fn depths(events: &[Ev], held: usize) -> Vec<(&'static str, usize)> {
    let (mut store, mut out, mut all) = (events.concat(), vec![0; STORE + 12], bundle(events));
    let (mut create, mut last, mut asked, mut table) = (events[0], events[255], id(&events[200]), CORD_BYTES);
    let (mut count, mut numbers, mut tally) = (0, [0usize; 3], [0u32; 3]);
    let ([s, s_len], [o, o_len], [b, b_len]) = (lent(&mut store), lent(&mut out), lent(&mut all));
    let ([c, c_len], [e, e_len], [i, i_len]) = (lent(&mut create), lent(&mut last), lent(&mut asked));
    let [k, k_len] = lent(&mut table);
    let (n, r, t) = (&raw mut count, numbers.as_mut_ptr() as usize, tally.as_mut_ptr() as usize);
    let count_at = n as usize;
    // The name, the count before the call where the call may alter it, and the arguments in order.
    let calls: [(&str, usize, &[usize]); 16] = [
        ("version", 0, &[]),
        ("start", 0, &[s, s_len, count_at, k, k_len, c, c_len]),
        ("take", 255, &[s, s_len, count_at, k, k_len, e, e_len, r]),
        ("take_counted", 255, &[s, s_len, count_at, k, k_len, e, e_len, r, t]),
        ("take_bundle", 1, &[s, s_len, count_at, k, k_len, b, b_len, r]),
        ("take_bundle_counted", 1, &[s, s_len, count_at, k, k_len, b, b_len, r, t]),
        ("look_up", 0, &[s, s_len, held, k, k_len, i, i_len, r]),
        ("order", 0, &[s, s_len, held, k, k_len, o, o_len, r]),
        ("verdict", 0, &[s, s_len, held, k, k_len, i, i_len, r]),
        ("map", 0, &[s, s_len, held, k, k_len, o, o_len, r, r + 8, r + 16]),
        ("write_out", 0, &[s, s_len, held, k, k_len, o, o_len, r]),
        ("text", 0, &[s, s_len, held, k, k_len, o, o_len, r]),
        ("document_table", 0, &[o, o_len]),
        ("first_event", 0, &[b, b_len, r]),
        ("id", 0, &[e, e_len, o, o_len]),
        ("ids", 0, &[s, held * EVENT, o, o_len]),
    ];
    calls.map(|(name, before, list)| (name, depth(name, n, before, list))).to_vec()
}

/// The deepest of each call over all sets, with the set. Of 255 held the last three are hashed one by one, which takes
/// more than four side by side.
fn deepest() -> Vec<(&'static str, usize, &'static str)> {
    let mut all: Vec<(&str, usize, &str)> = vec![];
    let sets = shapes::timed().into_iter().chain([("longest line", shapes::longest_line())]);
    for (set, events) in sets {
        for (i, (name, bytes)) in [256, 255].iter().flat_map(|&held| depths(&events, held).into_iter().enumerate()) {
            if i == all.len() {
                all.push((name, 0, set));
            }
            if bytes > all[i].1 {
                all[i] = (name, bytes, set);
            }
        }
    }
    all
}

/// The figure that a comment of the header has.
fn figure(comment: &str) -> Option<usize> {
    let bytes = comment.lines().find_map(|line| line.strip_prefix(" * stack ")?.strip_suffix(" bytes"))?;
    bytes.trim().replace(',', "").parse().ok()
}

/// The header's figure for a call, from the comment before its declaration.
fn bound(name: &str) -> Option<usize> {
    let declared = format!(" pelchunda_{name}(");
    let mut parts = HEADER.split("/*").filter_map(|part| part.split_once("*/"));
    parts.find_map(|(comment, code)| code.split(';').next()?.contains(&declared).then(|| figure(comment))?)
}

fn measure() -> bool {
    println!(
        "Bytes of stack with 255 or 256 held, the most over all sets, from just before the call instruction down."
    );
    println!("The bound is the header's. The budget is {BUDGET}.");
    let all = deepest();
    let mut good = true;
    for (name, bytes, set) in &all {
        let bound = bound(name).unwrap_or(0);
        let met = *bytes <= bound && bound <= BUDGET;
        good &= met;
        println!("{name:<20} {bytes:>6}   bound {bound:>6} {:<7}   set: {set}", if met { "met" } else { "NOT met" });
    }
    let figures = HEADER.split("/*").filter_map(figure).count();
    if figures != all.len() {
        println!("The header has {figures} figures, and {} calls were measured.", all.len());
    }
    good && figures == all.len()
}

/// Whether every call keeps to its bound, and the bound to the budget.
pub fn run() -> bool {
    let thread = std::thread::Builder::new().stack_size(THREAD).spawn(measure);
    thread.expect("a thread").join().expect("the measurement ends")
}
