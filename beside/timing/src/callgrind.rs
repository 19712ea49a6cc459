//! Instructions by valgrind's callgrind: the program runs itself under it and reads what it left.
use std::arch::asm;
use std::collections::BTreeMap;
use std::ffi::CString;
use std::fs;
use std::path::Path;
use std::process::Command;

/// A request to callgrind, as valgrind.h spells it; nothing happens where the program runs by itself.
fn request(code: u64, argument: u64) {
    const CALLGRIND: u64 = 0x4354_0000;
    let words = [CALLGRIND + code, argument, 0, 0, 0, 0];
    #[cfg(target_arch = "x86_64")]
    unsafe {
        asm!("rol rdi, 3", "rol rdi, 13", "rol rdi, 61", "rol rdi, 51", "xchg rbx, rbx",
            inout("rax") words.as_ptr() => _, inout("rdx") 0u64 => _);
    }
    #[cfg(target_arch = "aarch64")]
    unsafe {
        asm!("ror x12, x12, 3", "ror x12, x12, 13", "ror x12, x12, 51", "ror x12, x12, 61", "orr x10, x10, x10",
            inout("x4") words.as_ptr() => _, inout("x3") 0u64 => _);
    }
}

/// Runs what is to be counted and has callgrind write its instructions under a name.
pub fn count(name: &str, run: impl FnOnce()) {
    const DUMP_AT: u64 = 3;
    const START: u64 = 4;
    const STOP: u64 = 5;
    let name = CString::new(name).unwrap();
    request(START, 0);
    run();
    request(DUMP_AT, name.as_ptr() as u64);
    request(STOP, 0);
}

/// Runs this program with `--count` under callgrind; the instructions of each name, or nothing where there is no valgrind.
pub fn counted(work: &str) -> Option<BTreeMap<String, f64>> {
    let folder = format!("{work}/callgrind{}", if cfg!(feature = "our_root") { "4" } else { "" });
    let _ = fs::remove_dir_all(&folder);
    fs::create_dir_all(&folder).unwrap();
    let done = Command::new("valgrind")
        .args(["-q", "--tool=callgrind", "--instr-atstart=no", &format!("--callgrind-out-file={folder}/out")])
        .args([&std::env::current_exe().unwrap().to_string_lossy(), work, "--count"])
        .status();
    if !done.ok()?.success() {
        return None;
    }
    let files = fs::read_dir(&folder).unwrap();
    Some(files.filter_map(|f| told(&f.unwrap().path())).collect())
}

fn told(file: &Path) -> Option<(String, f64)> {
    let text = fs::read_to_string(file).ok()?;
    let after = |start: &str| text.lines().find_map(|l| l.strip_prefix(start));
    let name = after("desc: Trigger: Client Request: ")?;
    Some((name.to_string(), after("totals: ")?.trim().parse().ok()?))
}
