//! The deepest stack of small functions.

mod common;

use common::{library, with_tables};
use stack_gate::calls::Entries;
use stack_gate::depth::{bytes, Frames};
use stack_gate::library::Library;

/// The deepest stack of the function `f`, no function calling itself.
fn depth(library: &Library) -> i64 {
    let frames = Frames::new(library, &[]).expect("frames");
    bytes(
        &frames
            .deepest(library.function("f").expect("f"))
            .expect("a path"),
    )
}

#[test]
fn a_plain_function_takes_its_return_address_its_pushes_and_its_frame() {
    let plain = [
        "push %rbx",
        "sub $0x10,%rsp",
        "add $0x10,%rsp",
        "pop %rbx",
        "ret",
    ];
    assert_eq!(depth(&library(&[("f", &plain)])), 8 + 8 + 16);
}

#[test]
fn an_array_of_64_words_takes_256_bytes_more() {
    let without = ["sub $0x18,%rsp", "call 2 @ g-0x4", "add $0x18,%rsp", "ret"];
    let with = [
        "sub $0x118,%rsp",
        "call 2 @ g-0x4",
        "add $0x118,%rsp",
        "ret",
    ];
    let leaf = ["ret"];
    let without = depth(&library(&[("f", &without), ("g", &leaf)]));
    let with = depth(&library(&[("f", &with), ("g", &leaf)]));
    assert_eq!(with, without + 256);
}

#[test]
fn a_callee_comes_below_the_depth_at_its_call() {
    let caller = [
        "push %rbx",
        "call 2 @ .text.g-0x4",
        "pop %rbx",
        "sub $0x8,%rsp",
        "add $0x8,%rsp",
        "ret",
    ];
    let callee = ["lea -0x20(%rsp),%rsp", "lea 0x20(%rsp),%rsp", "ret"];
    assert_eq!(
        depth(&library(&[("f", &caller), ("g", &callee)])),
        16 + 8 + 32
    );
}

#[test]
fn a_tail_call_has_no_return_address_of_its_own() {
    let caller = ["push %rbx", "pop %rbx", "jmp 3 @ .text.g-0x4"];
    let callee = ["sub $0x20,%rsp", "add $0x20,%rsp", "ret"];
    assert_eq!(depth(&library(&[("f", &caller), ("g", &callee)])), 8 + 32);
}

#[test]
fn a_loop_and_a_way_around_it_take_no_more() {
    let looped = [
        "push %rbx",
        "test %rdi,%rdi",
        "je 5 <f+0x5>",
        "dec %rdi",
        "jne 3 <f+0x3>",
        "pop %rbx",
        "ret",
    ];
    assert_eq!(depth(&library(&[("f", &looped)])), 16);
}

#[test]
fn what_is_used_below_the_stack_pointer_counts_to_the_word() {
    let near = ["push %rbx", "mov %rax,-0x14(%rsp)", "pop %rbx", "ret"];
    assert_eq!(depth(&library(&[("f", &near)])), 16 + 24);
    let by_a_copy = [
        "push %rbp",
        "mov %rsp,%rbp",
        "mov %eax,-0x14(%rbp)",
        "pop %rbp",
        "ret",
    ];
    assert_eq!(depth(&library(&[("f", &by_a_copy)])), 16 + 24);
    let all_of_it = ["lea -0x14(%rsp),%rdi", "ret"];
    assert_eq!(depth(&library(&[("f", &all_of_it)])), 8 + 128);
}

#[test]
fn a_function_outside_counts_its_return_address_and_is_told() {
    let caller = ["push %rbx", "call 2 @ memset-0x4", "pop %rbx", "ret"];
    let library = library(&[("f", &caller)]);
    assert_eq!(depth(&library), 16 + 8);
    let frames = Frames::new(&library, &[]).expect("frames");
    assert_eq!(
        frames.outside(0).into_iter().collect::<Vec<_>>(),
        ["memset"]
    );
}

#[test]
fn a_function_that_calls_itself_is_entered_as_often_as_is_known() {
    let settle = [
        "push %rbx",
        "call 2 @ .text.g-0x4",
        "call 0 <f>",
        "pop %rbx",
        "ret",
    ];
    let callee = ["sub $0x40,%rsp", "add $0x40,%rsp", "ret"];
    let library = library(&[("f", &settle), ("g", &callee)]);
    let deepest = |most, calling| {
        let known = Entries {
            function: "f",
            most,
            calling,
        };
        let known = [known];
        let frames = Frames::new(&library, &known).expect("frames");
        bytes(&frames.deepest(0).expect("a path"))
    };
    assert_eq!(deepest(3, 3), 3 * 16 + 72);
    assert_eq!(deepest(4, 3), 3 * 16 + 72);
    assert_eq!(deepest(9, 3), 3 * 16 + 72);
}

/// A jump through the table of two entries in `.rodata.f`: to instruction 5 and to instruction 7.
const JUMP: [&str; 9] = [
    "push %rbx",
    "lea 0x0(%rip),%rdx @ .rodata.f-0x4",
    "movslq (%rdx,%rcx,4),%rsi",
    "add %rdx,%rsi",
    "jmp *%rsi",
    "pop %rbx",
    "ret",
    "pop %rbx",
    "ret",
];

/// Its table.
const TABLE: &str = "
RELOCATION RECORDS FOR [.rodata.f]:
OFFSET           TYPE              VALUE
0000000000000000 R_X86_64_PC32     .text.f+0x0000000000000005
0000000000000004 R_X86_64_PC32     .text.f+0x000000000000000b
";

#[test]
fn a_jump_through_a_table_stays_in_its_function() {
    assert_eq!(depth(&with_tables(&[("f", &JUMP)], TABLE)), 16);
}

#[test]
fn a_jump_through_a_table_that_leads_elsewhere_is_refused() {
    let library = with_tables(&[("f", &JUMP)], &TABLE.replace("000b", "00ff"));
    let refused = Frames::new(&library, &[]).err().expect("a refusal");
    assert!(
        refused.contains("f at 0x4, `jmp *%rsi`: its table leads out"),
        "{refused}"
    );
}
