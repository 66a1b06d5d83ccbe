#!/bin/sh
# Tries the library that stands below PREFIX, as build.sh leaves it, from C, C++, Python and Rust. What is not on this
# machine is left out, with a line that says so. With UNITS so many random units are read (200,000 if not set); where the
# program `sms` is built (crates/sms/out/sms), what it shows of them is compared. With SMS_PROGRAM it is compared with that
# program, which has to be there.
set -eu
here=$(CDPATH='' cd -- "$(dirname -- "$0")" && pwd -P)
prefix=${PREFIX:-/usr/local}
shared=libsms.so.$(sed 's/[.].*//' "$here/VERSION")
units=${UNITS:-200000}
room=$(mktemp -d)
trap 'rm -rf "$room"' EXIT
trap 'exit 1' HUP INT TERM
# A struct may be filled by its first fields alone: what is left out is 0, as spare octets have to be.
flags="-std=c99 -Wall -Wextra -Wno-missing-field-initializers -Wpedantic -Werror -gdwarf-4 -O1 -I$prefix/include"
dynamic="-L$prefix/lib -lsms"
export LD_LIBRARY_PATH="$prefix/lib${LD_LIBRARY_PATH:+:$LD_LIBRARY_PATH}"
# Python writes nothing beside its files, and cargo nothing but its target folder.
export PYTHONDONTWRITEBYTECODE=1

there() {
	command -v "$1" >/dev/null 2>&1
}

left_out() {
	echo "left out: $1"
}

# Whether a compiler has what a sanitizer needs to link and run here.
# shellcheck disable=SC2086
has() {
	printf 'int main(void) { return 0; }\n' >"$room/empty.c"
	$1 $2 "$room/empty.c" -o "$room/empty" >/dev/null 2>&1 && "$room/empty" >/dev/null 2>&1
}

# refuses WORD COMPILER..: it ends with an error of that word for the program on standard input.
refuses() {
	word=$1
	shift
	cat >"$room/wrong.c"
	if "$@" "-I$prefix/include" -c "$room/wrong.c" -o "$room/wrong.o" 2>"$room/wrong" || ! grep -q "error.*$word" "$room/wrong"; then
		cat "$room/wrong"
		echo "$* tells no error of $word"
		exit 1
	fi
}

# What the header alone sees to: sizes of structs, and statuses that are looked at.
header() {
	for std in c99 c11 c2x; do
		$1 -std=$std -Wall -Wextra -Wpedantic -Werror "-I$prefix/include" -fsyntax-only "$here/tests/layout.c"
	done
	echo '#include <sms.h>' | refuses sms_deliver "$1" -std=c11 -fpack-struct=1
	refuses unused-result "$1" -std=c99 -Werror <<'END'
#include <sms.h>
void ages(sms_joiner *joiner) { sms_joiner_age(joiner, 0); }
END
}

# shellcheck disable=SC2086
in_c() {
	cc=$1
	header "$cc"
	guards="-fsanitize=address,undefined -fno-sanitize-recover=all"
	if ! has "$cc" "$guards"; then
		left_out "$cc has no address and undefined-behaviour sanitizers here"
		guards=
	fi
	echo "== $cc, libsms.a ${guards:+under the sanitizers}"
	for test in writers promises gateway state data records; do
		$cc $flags $guards "$here/tests/$test.c" "$prefix/lib/libsms.a" -o "$room/static"
		"$room/static" "$units"
	done
	echo "== $cc, libsms.so"
	for test in writers promises gateway state data records; do
		$cc $flags "$here/tests/$test.c" $dynamic -o "$room/shared"
		"$room/shared" "$units"
	done
	echo "== $cc, each request for memory refused in turn"
	$cc $flags "$here/tests/memory.c" "$prefix/lib/libsms.a" -Wl,--wrap=malloc,--wrap=realloc,--wrap=free -o "$room/memory"
	"$room/memory"
	echo "== $cc, many threads"
	guards="-fsanitize=thread"
	if ! has "$cc" "$guards"; then
		left_out "$cc has no thread sanitizer here"
		guards=
	fi
	$cc $flags $guards "$here/tests/threads.c" "$prefix/lib/libsms.a" -pthread -o "$room/threads"
	"$room/threads"
	for example in "$here"/examples/*.c; do
		$cc $flags "$example" $dynamic -o "$room/example"
		"$room/example" >"$room/told"
		cmp "$room/told" "${example%.c}.out"
	done
}

found=
for cc in ${CCS:-gcc clang}; do
	if there "$cc"; then
		found=$cc
		in_c "$cc"
	else
		left_out "there is no $cc"
	fi
done
[ -n "$found" ] || { echo "there is no compiler of C" >&2; exit 1; }

# shellcheck disable=SC2086
for cxx in ${CXXS:-g++ clang++}; do
	if there "$cxx"; then
		echo "== $cxx"
		for std in c++11 c++20; do
			$cxx -std=$std -Wall -Wextra -Wpedantic -Wzero-as-null-pointer-constant -Werror "-I$prefix/include" \
				"$here/tests/compiles.cpp" $dynamic -o "$room/cpp"
			"$room/cpp"
		done
		echo '#include <sms.h>' | refuses sms_deliver "$cxx" -xc++ -std=c++11 -fpack-struct=1
	else
		left_out "there is no $cxx"
	fi
done

if there valgrind; then
	echo "== valgrind"
	valgrind -q --error-exitcode=9 --leak-check=full "$room/shared" 2000
else
	left_out "there is no valgrind"
fi

# shellcheck disable=SC2086
$found $flags "$here/tests/layout.c" -o "$room/layout"
"$room/layout" >"$room/layout.c.txt"
of_rust=
if there cargo && cargo --version >/dev/null 2>&1; then
	echo "== cargo"
	export CARGO_TARGET_DIR="$room/target" CARGO_HOME="$room/cargo-home" SMS_LIB_DIR="$prefix/lib"
	(cd "$here/../rust" && cargo test --offline --locked --quiet && cargo run --offline --locked --quiet --example layout) >"$room/cargo" ||
		{ cat "$room/cargo"; exit 1; }
	(cd "$here/../rust" && RUSTDOCFLAGS=-Dwarnings cargo doc --offline --locked --quiet --no-deps)
	for example in read write join; do
		(cd "$here/../rust" && cargo run --offline --locked --quiet --example "$example") >"$room/told"
		cmp "$room/told" "$here/examples/$example.out"
	done
	grep '^sms_' "$room/cargo" >"$room/layout.rust.txt"
	grep -v '^sms_' "$room/cargo"
	of_rust=$room/layout.rust.txt
else
	left_out "there is no cargo"
fi

if there python3; then
	echo "== python3"
	export SMS_LIBRARY="$prefix/lib/$shared" PYTHONPATH="$here/../python/src"
	python3 -m unittest discover -q -s "$here/../python/tests"
	asan=$(gcc -print-file-name=libasan.so 2>/dev/null || true)
	if [ -f "$asan" ]; then
		echo "== python3 under the address sanitizer"
		LD_PRELOAD=$asan ASAN_OPTIONS=detect_leaks=0 python3 -m unittest discover -q -s "$here/../python/tests"
	else
		left_out "gcc brings no address sanitizer for python3"
	fi
	for example in read write join smpp gateway restart; do
		python3 "$here/../python/examples/$example.py" >"$room/told"
		cmp "$room/told" "$here/examples/$example.out"
	done
	if there mypy; then
		echo "== mypy"
		MYPYPATH=$PYTHONPATH mypy --strict --no-error-summary --cache-dir="$room/mypy" \
			"$PYTHONPATH/sms" "$here"/../python/examples/*.py "$here/tests/typed.py"
	else
		left_out "there is no mypy, so Python's types are not checked"
	fi
	python3 "$here/tests/shown.py" "$here/../docs/C.md" "$here/../docs/SMPP.md"
	python3 "$here/tests/agree.py" "$room/layout.c.txt" "$SMS_LIBRARY" ${of_rust:+"$of_rust"}
	python3 "$here/tests/planted.py" "$room/layout.c.txt" "$SMS_LIBRARY"
	program=${SMS_PROGRAM:-$here/../crates/sms/out/sms}
	if [ -x "$program" ] || [ -n "${SMS_PROGRAM:-}" ]; then
		python3 "$here/tests/beside_show.py" "$program" "$units"
	else
		left_out "the program is not built at $program, so units are not shown beside it"
	fi
	if python3 -m pip --version >/dev/null 2>&1; then
		cp -r "$here/../python" "$room/python"
		env -u PYTHONPATH python3 -m pip install -q --no-index --no-deps --no-cache-dir --disable-pip-version-check \
			--root-user-action=ignore --target "$room/site" "$room/python"
		env -u SMS_LIBRARY PYTHONPATH="$room/site" python3 -m unittest discover -q -s "$here/../python/tests"
	else
		left_out "python3 has no pip"
	fi
else
	left_out "there is no python3"
fi
echo "the library below $prefix holds what sms.h promises"
