//! The C calls, the most stack that each may take, and how often the functions that call themselves
//! are entered. include/landing.h promises the same bounds.

/// A C call: its name in include/landing.h without `landing_`, and its bound in bytes.
pub struct Call {
    pub name: &'static str,
    pub most: u64,
}

/// The bound of a call that answers one question.
pub const QUESTION: u64 = 512;
/// The bound of every other call.
pub const OTHER: u64 = 2048;

/// Every call of the library.
pub const CALLS: &[Call] = &[
    call("format", OTHER),
    call("put", OTHER),
    call("drop", OTHER),
    call("ask", QUESTION),
    call("why", QUESTION),
    call("list", OTHER),
    call("check", OTHER),
    call("store_words", OTHER),
    call("work_words", OTHER),
];

/// What every call's name begins with in the library.
pub const PREFIX: &str = "landing_";

/// How often a function is entered that calls itself, over others or not.
pub struct Entries {
    pub function: &'static str,
    /// The most entries that are unfinished at one time.
    pub most: usize,
    /// The most of them that call anything. Only the last ones call nothing.
    pub calling: usize,
}

/// The only recursion, that of crates/merge. `settle` of a level calls `merge` of it, which calls
/// `settle` of the next level; an index has the levels 0 to 3 at most.
///
/// - Settle requires that its level exists, so it is entered for four levels at most. That of the
///   bottom calls nothing: `is_full` says no before it looks at the store, and settle returns.
/// - Merge requires that the next level exists, so it is entered for three levels at most.
///
/// The compiler may put merge into settle, and `is_full` too. The painted figure shows whether the
/// bottom's settle calls anything: every merge down to level 3 enters it.
pub const RECURSION: &[Entries] = &[
    Entries {
        function: "merge::settle",
        most: 4,
        calling: 3,
    },
    Entries {
        function: "merge::merge",
        most: 3,
        calling: 3,
    },
];

/// The bound of the call of this name.
pub fn bound(name: &str) -> Option<u64> {
    let call = CALLS.iter().find(|call| call.name == name);
    call.map(|call| call.most)
}

/// A call and its bound.
const fn call(name: &'static str, most: u64) -> Call {
    Call { name, most }
}
