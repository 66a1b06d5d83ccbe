"""Whether the crate sms_c, sms.h, sms.map, the Python package and the Rust crate declare the same.

    python3 agree.py LAYOUT LIBRARY [RUST]

LAYOUT is what layout.c prints, LIBRARY the shared library, beside which libsms.a lies, and RUST what `cargo run --example
layout` prints. Compared are the fields of each struct with their types, offsets and sizes; the parameters of each call with
their names, types, signs and constness, and its answer; the names that are exported; and each number that has a name. Each
difference is printed, and the status is 1 where there is one.
"""

import difflib
import os
import re
import subprocess
import sys
from pathlib import Path

sys.dont_write_bytecode = True

import of_crate
import of_header
import of_rust

TOP = of_header.TOP
failed = []


def differs(what, one, other):
    if one != other:
        failed.append(what)
        print(f"{what} differ:")
        print("\n".join(difflib.unified_diff(one, other, lineterm="", n=0)))


def told(path):
    return Path(path).read_text(encoding="utf-8").splitlines()


def of_structs(structs):
    return [f"{name}.{field}: {kind}" for name, fields in structs.items() for field, kind in fields]


def of_calls(calls):
    told = {name: ", ".join(f"{it}: {kind}" if it else kind for it, kind in given) for name, (given, _) in calls.items()}
    return sorted(f"{name}({told[name]}) -> {answer}" for name, (_, answer) in calls.items())


def of_numbers(numbers, groups):
    return [f"{group} {name} = {number}" for group in groups for name, number in sorted(numbers.get(group, {}).items())]


# ---- structs, calls, names


def joiners_last(lines):
    """Rust tells of sms_joiner and sms_gateway, which are none of its plain structs, after them."""
    return sorted(lines, key=lambda it: re.match(r"sms_(joiner|gateway)\b", it) is not None)


def structs(of_python, layout, layout_of_rust):
    lines = of_structs(of_header.structs())
    differs("the structs of sms_c and of sms.h", of_structs(of_crate.structs()), lines)
    differs("the structs of sms.h and of Rust", joiners_last(lines), of_structs(of_rust.structs()))
    seen = {name: [(it, of_python.seen(kind)) for it, kind in fields] for name, fields in of_header.structs().items()}
    differs("the structs of sms.h and of Python", of_structs(seen), of_structs(of_python.structs()))
    named = [it.split()[0] for it in layout if "." in it]
    differs("the fields of sms.h and of layout.c", [it.partition(":")[0] for it in lines], named)
    differs("the layouts of sms_c and of sms.h", of_crate.layout(), layout)
    differs("the layouts of sms.h and of Python", layout, of_python.raw.layout())
    differs("the sizes that sms.h asserts and has", of_header.asserted(), [it for it in layout if "." not in it])
    if layout_of_rust:
        differs("the layouts of sms.h and of Rust", joiners_last(layout), told(layout_of_rust))


def calls(of_python):
    header = of_header.calls()
    differs("the calls of sms_c and of sms.h", of_calls(of_crate.calls()), of_calls(header))
    differs("the calls of sms.h and of Rust", of_calls(header), of_calls(of_rust.calls()))
    seen = {name: ([("", of_python.seen(kind)) for _, kind in given], answer) for name, (given, answer) in header.items()}
    differs("the calls of sms.h and of Python", of_calls(seen), of_calls(of_python.calls()))


def defined(library, which):
    ran = subprocess.run(["nm", which, "--defined-only", library], capture_output=True, text=True, check=True)
    return {it.split()[-1] for it in ran.stdout.splitlines() if it and not it.endswith(":")}


def names(library):
    listed = re.findall(r"^    (\w+);$", (TOP / "c" / "sms.map").read_text(encoding="utf-8"), re.M)
    differs("the names of sms.h and of sms.map", sorted(of_header.calls()), listed)
    version = f"SMS_{of_header.constants()['SMS_ABI']}"
    wanted = [f"{it}@@{version}" for it in listed]
    differs("the names of sms.map and of the library", wanted, sorted(defined(library, "-D") - {version}))
    archive = Path(library).with_name("libsms.a")
    differs("the names of sms.map and of libsms.a", listed, sorted(defined(archive, "-g")))


# ---- numbers


def numbers(of_python):
    header, crate, python = of_header.numbers(), of_crate.numbers(), of_python.numbers()
    groups, taken = list(header), "format, as it is taken"
    # The crate has no sizes that are always enough, and takes formats beside showing them.
    own = [*(it for it in groups if it != "size"), taken]
    differs("the numbers of sms_c and of sms.h", of_numbers(crate, own), of_numbers({**header, taken: header["format"]}, own))
    differs("the numbers of sms.h and of Python", of_numbers(header, groups), of_numbers(python, groups))
    named = {**of_header.constants(), **{f"KIND_{name}": number for name, number in header["kind of CP"].items()}}
    differs("the numbers of sms.h and of Rust", of_numbers({"": named}, [""]), of_numbers({"": of_rust.constants()}, [""]))
    kinds = [of_numbers({"": header[f"kind of {it}"]}, [""]) for it in ("CP", "RP")]
    differs("the kinds of CP and of RP", *kinds)
    differs("the names of statuses and of Python's exceptions", of_python.misnamed(), [])
    wrong, count = of_rust.misnamed()
    differs("the names of numbers and of Rust's variants", wrong, [])
    # Statuses but four (all is well, no room, closed, changed); reasons; alphabets and formats as they are given, and as
    # they are seen, but the last, which stands for all else; states and units of records, and outcomes, but the last; kinds
    # of CP and of RP but the last.
    much = {group: len(members) for group, members in header.items()}
    arms = much["status"] - 4 + much["reason"] + 2 * much["alphabet"] - 1 + 2 * much["format"] - 1 + much["outcome"] - 1 + 4
    arms += much["record"] - 1 + much["unit"] - 1
    differs("the arms of Rust", [str(arms)], [str(count)])


def versions(of_python):
    version = told(TOP / "c" / "VERSION")[0]
    abi, minor, patch = map(int, version.split("."))
    number = 1_000_000 * abi + 1000 * minor + patch
    files = {it: (TOP / it).read_text(encoding="utf-8") for it in ("python/pyproject.toml", "rust/Cargo.toml", "rust/Cargo.lock")}
    own = re.compile('^name = "sms"$.*?^version = "(.*?)"$', re.M | re.S)
    found = [f"{name} {own.search(text)[1]}" for name, text in files.items()]
    header, python = of_header.constants(), of_python.raw
    found += [f"SMS_ABI {header['SMS_ABI']}", f"SMS_VERSION {header['SMS_VERSION']}", f"sms_c {of_crate.version()}"]
    found += [f"Python {python.ABI}", f"Python {python.VERSION}", f"the library {python.lib.sms_version()}"]
    wanted = [*(f"{it} {version}" for it in files), f"SMS_ABI {abi}", f"SMS_VERSION {number}", f"sms_c {number}"]
    differs("c/VERSION and what follows it", [*wanted, f"Python {abi}", f"Python {number}", f"the library {number}"], found)


def main():
    layout, library = told(sys.argv[1]), sys.argv[2]
    os.environ["SMS_LIBRARY"] = library
    sys.path.insert(0, str(TOP / "python" / "src"))
    import of_python

    structs(of_python, layout, sys.argv[3] if len(sys.argv) > 3 else None)
    calls(of_python)
    names(library)
    numbers(of_python)
    versions(of_python)
    print(f"{len(failed)} of the declarations differ" if failed else "the declarations agree")
    return 1 if failed else 0


sys.exit(main())
