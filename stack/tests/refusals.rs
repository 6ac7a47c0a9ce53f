//! What the tool does not know stops it, with a message that names the function and the instruction.

mod common;

use common::library;
use stack_gate::computed::depths;
use stack_gate::depth::Frames;
use stack_gate::library::Library;

/// Why the function `f` of some instructions has no frame.
fn refusal(instructions: &[&str]) -> String {
    let library = library(&[("f", instructions)]);
    Frames::new(&library, &[]).err().expect("a refusal")
}

#[test]
fn an_indirect_call_is_refused() {
    let said = refusal(&["sub $0x8,%rsp", "call *%rax", "add $0x8,%rsp", "ret"]);
    assert_eq!(
        said,
        "f at 0x1, `call *%rax`: an indirect call: its target is not known"
    );
}

#[test]
fn an_indirect_jump_without_a_table_is_refused() {
    let said = refusal(&["mov (%rdi),%rax", "jmp *%rax"]);
    assert_eq!(
        said,
        "f at 0x1, `jmp *%rax`: an indirect jump that no table is known of"
    );
}

#[test]
fn an_unknown_write_of_the_stack_pointer_is_refused() {
    for write in [
        "and $0xfffffffffffffff0,%rsp",
        "mov %rbp,%rsp",
        "sub %rax,%rsp",
        "xchg %rsp,%rax",
        "pop %rsp",
        "mov $0x0,%esp",
        "lea -0x28(%rbp),%rsp",
    ] {
        let said = refusal(&[write, "ret"]);
        let why = "uses the stack pointer in a way that is not known here";
        assert_eq!(said, format!("f at 0x0, `{write}`: {why}"));
    }
}

#[test]
fn an_unknown_instruction_is_refused() {
    for unknown in [
        "leave",
        "enter $0x8,$0x0",
        "pushf",
        "syscall",
        "ret $0x8",
        "push %ax",
        "(bad)",
    ] {
        let said = refusal(&[unknown, "ret"]);
        assert_eq!(
            said,
            format!("f at 0x0, `{unknown}`: an unknown instruction")
        );
    }
}

#[test]
fn ways_that_meet_at_different_depths_are_refused() {
    let said = refusal(&["je 2 <f+0x2>", "push %rbx", "ret"]);
    assert!(said.contains("bytes deep on another way"), "{said}");
    let said = refusal(&["push %rbx", "ret"]);
    assert_eq!(said, "f at 0x1, `ret`: returns with 16 bytes on the stack");
}

#[test]
fn a_way_past_the_end_and_one_into_the_middle_are_refused() {
    assert_eq!(refusal(&["push %rbx"]), "f: runs past its end");
    let said = refusal(&["jmp 3 @ .text.g+0x3"]);
    assert!(
        said.ends_with("no function starts at 0x7 of .text.g"),
        "{said}"
    );
}

#[test]
fn unknown_recursion_is_refused() {
    let caller = [
        "sub $0x8,%rsp",
        "call 2 @ .text.g-0x4",
        "add $0x8,%rsp",
        "ret",
    ];
    let callee = [
        "sub $0x8,%rsp",
        "call 2 @ .text.f-0x4",
        "add $0x8,%rsp",
        "ret",
    ];
    let library = library(&[("f", &caller), ("g", &callee)]);
    let frames = Frames::new(&library, &[]).expect("frames");
    let said = frames.deepest(0).expect_err("a refusal");
    assert_eq!(said, "f calls g calls f: how often is not known here");
}

#[test]
fn a_call_without_a_bound_and_one_that_is_missing_are_refused() {
    let said = depths(&library(&[("landing_new", &["ret"])])).err();
    assert_eq!(
        said.expect("a refusal"),
        "landing_new has no bound in stack/src/calls.rs"
    );
    let said = depths(&library(&[("landing_ask", &["ret"])])).err();
    assert_eq!(
        said.expect("a refusal"),
        "the library has no landing_format"
    );
}

#[test]
fn a_library_for_another_processor_or_of_two_objects_is_refused() {
    let object = "a.o:     file format elf64-x86-64\n";
    for (text, why) in [
        (
            "a.o:     file format elf64-littleaarch64\n".to_string(),
            "not elf64-x86-64",
        ),
        (object.repeat(2), "more than one object"),
        (format!("{object}\t...\n"), "a line that is not known here"),
    ] {
        let said = Library::read(&text, "").err().expect("a refusal");
        assert!(said.contains(why), "{said}");
    }
}
