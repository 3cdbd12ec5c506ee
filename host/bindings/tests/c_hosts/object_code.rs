//! What the compiler made of the proved code, where the proof does not reach: the archive's instructions and symbols.
use crate::building::{archive, header, scratch, succeed};
use std::collections::BTreeSet;
use std::process::Command;

/// The instructions of the archive: their names and their operands.
fn instructions() -> Vec<(String, String)> {
    let mut command = Command::new("objdump");
    let text = succeed(
        command
            .args(["--disassemble", "--no-show-raw-insn"])
            .arg(archive()),
    );
    let instructions: Vec<_> = text.lines().filter_map(instruction).collect();
    assert!(instructions.len() > 1000, "{}", instructions.len());
    instructions
}

/// A line such as `142:`, a tab, `ucomisd %xmm0,%xmm0`.
fn instruction(line: &str) -> Option<(String, String)> {
    let (address, code) = line.split_once(":\t")?;
    u64::from_str_radix(address.trim(), 16).ok()?;
    let (name, operands) = code.trim().split_once(' ').unwrap_or((code.trim(), ""));
    Some((name.to_owned(), operands.trim().to_owned()))
}

/// Whether an instruction works on floats or vectors.
fn is_floating(name: &str, operands: &str) -> bool {
    let registers = ["%xmm", "%ymm", "%zmm", "%st", "%mm"];
    name.starts_with('f') || registers.iter().any(|register| operands.contains(register))
}

/// What may be done with a float whatever the mode: to move it, by itself or beside another, to clear a register, to make it of
/// a whole number, which is exact up to 2^53, and to compare it with itself, which tells a NaN and which no mode changes.
fn is_the_same_in_every_mode(name: &str, operands: &str) -> bool {
    let with_itself = operands.split_once(',').map_or(false, |(left, right)| {
        left == right && left.starts_with("%xmm")
    });
    name.starts_with("mov")
        || name == "unpcklpd"
        || name.starts_with("cvtsi2sd")
        || matches!(name, "xorps" | "xorpd" | "pxor" | "ucomisd") && with_itself
}

/// A compiler may turn a test of a float's bits into a comparison of floats, to which a subnormal may be 0.
#[test]
fn no_instruction_depends_on_the_floating_point_mode() {
    let instructions = instructions();
    let floating = instructions
        .iter()
        .filter(|(name, operands)| is_floating(name, operands));
    let (same, other): (Vec<_>, Vec<_>) =
        floating.partition(|(name, operands)| is_the_same_in_every_mode(name, operands));
    assert_eq!(other, Vec::<&(String, String)>::new());
    let names: BTreeSet<&str> = same.iter().map(|(name, _)| name.as_str()).collect();
    for expected in ["cvtsi2sd", "ucomisd"] {
        assert!(names.contains(expected), "{expected} not among {names:?}");
    }
}

/// The header promises any x86-64 processor.
#[test]
fn no_instruction_of_a_later_processor() {
    const LATER: [&str; 23] = [
        "adcx", "adox", "andn", "bextr", "blsi", "blsmsk", "blsr", "bzhi", "crc32", "lzcnt",
        "movbe", "movddup", "movshdup", "movsldup", "mulx", "pdep", "pext", "popcnt", "rorx",
        "sarx", "shlx", "shrx", "tzcnt",
    ];
    for (name, operands) in instructions() {
        assert!(
            !name.starts_with('v') && !LATER.contains(&name.as_str()),
            "{name} {operands}"
        );
    }
}

/// A host finds the entries that the header declares, and no other name that one of its own could meet.
#[test]
fn exports_what_the_header_declares() {
    let mut command = Command::new("nm");
    let symbols = succeed(
        command
            .args(["--defined-only", "--extern-only", "--format=posix"])
            .arg(archive()),
    );
    let exported: BTreeSet<&str> = symbols
        .lines()
        .skip(1) // names the object
        .filter_map(|line| line.split(' ').next())
        .collect();
    let header = header();
    let declared: BTreeSet<&str> = header
        .lines()
        .filter_map(|line| line.strip_prefix("uint64_t ")?.split('(').next())
        .collect();
    assert_eq!(exported, declared);
}

/// It calls nothing, the C library neither, and goes into a shared library as well as into a program.
#[test]
fn links_alone_and_into_a_shared_library() {
    let undefined = succeed(Command::new("nm").arg("--undefined-only").arg(archive()));
    assert_eq!(undefined.trim(), "addin.o:");
    succeed(
        Command::new("gcc")
            .args([
                "-shared",
                "-nostdlib",
                "-Wl,--no-undefined",
                "-Wl,--whole-archive",
            ])
            .arg(archive())
            .arg("-o")
            .arg(scratch("libaddin.so")),
    );
}
