"""Whether agree.py sees differences: python3 planted.py LAYOUT LIBRARY. Each is planted in a copy, where agree.py has to fail and
to name what differs."""

import shutil
import subprocess
import sys
import tempfile
from pathlib import Path

TOP = Path(__file__).resolve().parents[2]
READ = (
    "c",
    "crates/sms_c/src",
    "crates/sms_card/src",
    "python/src",
    "python/pyproject.toml",
    "rust/src",
    "rust/Cargo.toml",
    "rust/Cargo.lock",
)
# What is told, a file, what stands in it once, and what is planted there.
PLANTED = (
    (
        "the calls of sms_c and of sms.h",
        "c/sms.h",
        "sms_stamp_at(uint64_t seconds, int8_t",
        "sms_stamp_at(uint64_t seconds, uint8_t",
    ),
    ("the calls of sms_c and of sms.h", "c/sms.h", "sms_stamp_date(const sms_stamp", "sms_stamp_date(sms_stamp"),
    (
        "the calls of sms_c and of sms.h",
        "c/sms.h",
        "size_t open_max, size_t remembered);",
        "size_t remembered, size_t open_max);",
    ),
    ("the calls of sms_c and of sms.h", "c/sms.h", "SMS_STATUS sms_cp_ack", "sms_status sms_cp_ack"),
    (
        "the calls of sms_c and of sms.h",
        "crates/sms_c/src/wrapping/connection.rt",
        "sms_cp_error(\n    alloc: Global,\n    envelope: &Envelope,\n    cause: u8",
        "sms_cp_error(\n    alloc: Global,\n    envelope: &Envelope,\n    cause: u32",
    ),
    ("the structs of sms_c and of sms.h", "c/sms.h", "int8_t quarters;", "uint8_t quarters;"),
    (
        "the structs of sms_c and of sms.h",
        "crates/sms_c/src/times.rt",
        "    pub minute: u8,\n    pub second: u8,",
        "    pub second: u8,\n    pub minute: u8,",
    ),
    ("the structs of sms_c and of sms.h", "c/sms.h", "uint8_t come[32];", "uint8_t come[33];"),
    ("the sizes that sms.h asserts and has", "c/sms.h", "SMS_HAS(96, sms_deliver);", "SMS_HAS(88, sms_deliver);"),
    (
        "the numbers of sms_c and of sms.h",
        "c/sms.h",
        "SMS_KEPT = 1, SMS_FINISHED = 2",
        "SMS_KEPT = 2, SMS_FINISHED = 1",
    ),
    ("the numbers of sms_c and of sms.h", "crates/sms_c/src/parts.rt", "Alphabet::Ucs2 => 2,", "Alphabet::Ucs2 => 4,"),
    ("the numbers of sms_c and of sms.h", "crates/sms_c/src/reading/data.rt", "SINGLE: u8 = 2;", "SINGLE: u8 = 3;"),
    ("the numbers of sms_c and of sms.h", "c/sms.h", "SMS_RECORD_SENT_AWAITED = 13", "SMS_RECORD_SENT_AWAITED = 15"),
    (
        "the calls of sms.h and of Rust",
        "rust/src/raw.rs",
        "sms_stamp_at(seconds: u64, quarters: i8",
        "sms_stamp_at(seconds: u64, quarters: u8",
    ),
    ("the calls of sms.h and of Rust", "rust/src/raw.rs", "user: *const User", "user: *mut User"),
    ("the structs of sms.h and of Rust", "rust/src/raw.rs", "quarters: i8,\n    }", "quarters: u8,\n    }"),
    (
        "the numbers of sms.h and of Rust",
        "rust/src/raw.rs",
        "SMS_PACKET_MAX: usize = 258",
        "SMS_PACKET_MAX: usize = 256",
    ),
    (
        "the names of numbers and of Rust's variants",
        "rust/src/lib.rs",
        "SMS_KEPT) => Ok(Offer::Kept",
        "SMS_KEPT) => Ok(Offer::Repeat",
    ),
    (
        "the calls of sms.h and of Python",
        "python/src/sms/raw.py",
        "[c_uint64, c_int8, POINTER(Stamp)]",
        "[c_uint64, c_uint8, POINTER(Stamp)]",
    ),
    ("the structs of sms.h and of Python", "python/src/sms/raw.py", '("quarters", c_int8)', '("quarters", c_uint8)'),
    (
        "the numbers of sms.h and of Python",
        "python/src/sms/__init__.py",
        "    BAD_TRANSACTION = 8\n    UNKNOWN_TYPE = 9",
        "    UNKNOWN_TYPE = 8\n    BAD_TRANSACTION = 9",
    ),
    ("the numbers of sms.h and of Python", "python/src/sms/raw.py", 'KINDS = ("data", "ack"', 'KINDS = ("ack", "data"'),
    (
        "the names of statuses and of Python's exceptions",
        "python/src/sms/__init__.py",
        "Status.TOO_LONG: TooLong",
        "Status.TOO_LONG: NotThere",
    ),
    ("the structs of sms.h and of Python", "python/src/sms/raw.py", '("change", c_uint64)', '("change", c_uint32)'),
    ("the calls of sms.h and of Rust", "rust/src/raw.rs", "joiner: *mut Joiner, cursor: *mut", "joiner: *mut Joiner, cursor: *const"),
    ("the numbers of sms.h and of Python", "python/src/sms/raw.py", "CHANGED = 11", "CHANGED = 12"),
    ("the names of sms.h and of sms.map", "c/sms.map", "    sms_split;\n", ""),
    ("c/VERSION and what follows it", "c/sms.h", "SMS_VERSION 2004000", "SMS_VERSION 2004001"),
    ("c/VERSION and what follows it", "rust/Cargo.toml", '\nversion = "', '\nversion = "9'),
)


def main():
    failed = 0
    with tempfile.TemporaryDirectory() as room:
        for path in READ:
            copied = shutil.copytree if (TOP / path).is_dir() else shutil.copy
            (Path(room) / path).parent.mkdir(parents=True, exist_ok=True)
            copied(TOP / path, Path(room) / path)
        ran = subprocess.run([sys.executable, f"{room}/c/tests/agree.py", *sys.argv[1:]], capture_output=True, text=True)
        if ran.returncode != 0:
            print(f"agree.py fails with nothing planted:\n{ran.stdout}{ran.stderr}")
            return 1
        for told, path, old, new in PLANTED:
            file = Path(room) / path
            whole = file.read_text(encoding="utf-8")
            file.write_text(whole.replace(old, new), encoding="utf-8")
            ran = subprocess.run([sys.executable, f"{room}/c/tests/agree.py", *sys.argv[1:]], capture_output=True, text=True)
            if whole.count(old) != 1 or ran.returncode != 1 or f"{told} differ:" not in ran.stdout:
                failed += 1
                print(f"{path}: {old!r} for {new!r} is not told:\n{ran.stdout}{ran.stderr}")
            file.write_text(whole, encoding="utf-8")
    print(f"{len(PLANTED)} differences planted, {failed} not told")
    return 1 if failed else 0


sys.exit(main())
