//! The code size of a static library: the bytes of its members' executable sections.

/// Where a member's header ends, and what an archive begins with.
const HEADER: usize = 60;
const MAGIC: &[u8] = b"!<arch>\n";
/// The flag of a section that holds code.
const EXECUTABLE: u64 = 4;

/// The bytes of code in an archive of 64-bit ELF objects, or none if it is not one.
pub fn code_bytes(archive: &[u8]) -> Option<u64> {
    let mut rest = archive.strip_prefix(MAGIC)?;
    let mut code = 0;
    while rest.len() >= HEADER {
        let length = std::str::from_utf8(&rest[48..58]).ok()?.trim();
        let length: usize = length.parse().ok()?;
        let member = rest.get(HEADER..HEADER + length)?;
        if member.starts_with(b"\x7fELF") {
            code += object_code(member)?;
        }
        rest = rest.get(HEADER + length + length % 2..).unwrap_or(&[]);
    }
    Some(code)
}

/// The bytes of code in one object, by its section headers.
fn object_code(object: &[u8]) -> Option<u64> {
    let start = number(object, 0x28, 8)? as usize;
    let size = number(object, 0x3a, 2)? as usize;
    let sections = number(object, 0x3c, 2)? as usize;
    let mut code = 0;
    for section in 0..sections {
        let header = start + size * section;
        if number(object, header + 8, 8)? & EXECUTABLE != 0 {
            code += number(object, header + 0x20, 8)?;
        }
    }
    Some(code)
}

/// The number in so many bytes at a place, lowest first.
fn number(bytes: &[u8], at: usize, length: usize) -> Option<u64> {
    let bytes = bytes.get(at..at + length)?;
    Some(
        bytes
            .iter()
            .rev()
            .fold(0, |number, byte| number << 8 | u64::from(*byte)),
    )
}
