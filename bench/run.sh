#!/bin/sh
# Builds the static library and the driver in a folder of their own, and runs the driver. README.md says how.
set -eu
here=$(cd "$(dirname "$0")" && pwd)
room=${BENCH_ROOM:-${TMPDIR:-/tmp}/sms-bench}
seconds=${1:-2} word=${2:-}
crates="sms_text sms_field sms_tpdu sms_join"

# the library's crate and the sources of those it stands on; what is proved of them stays in the room
mkdir -p "$room/crates/sms_bench/src"
: > "$room/crates.txt"
for crate in $crates; do
	from=$here/../crates/$crate to=$room/crates/$crate
	mkdir -p "$to"
	for part in src specs proofs; do
		rm -rf "${to:?}/$part"
		cp -a "$from/$part" "$to/"
	done
	grep "^$crate:" "$here/../crates.txt" >> "$room/crates.txt"
done
echo "sms_bench staticlib: $crates simdutf8" >> "$room/crates.txt"
cp "$here/../HANDLES" "$room/"
cp "$here/library/lib.rt.in" "$room/crates/sms_bench/src/lib.rt"
(cd "$room/crates/sms_bench" && rt lib > "$room/library.log") || { tail "$room/library.log"; exit 1; }

# what a static library leaves to whoever links it: the kit's heap, which calls malloc
set -- -L "$room/crates/sms_bench/out" -l static=sms_bench -C link-arg="$(dirname "$(rt doc)")/c/liblibc_c.a"
if [ -n "${OFONO:-}" ]; then
	packages="glib-2.0 ell"
	mkdir -p "$room/include"
	ln -sfn "$OFONO/include" "$room/include/ofono"
	# shellcheck disable=SC2086
	headers=$(pkg-config --cflags $packages) libraries=$(pkg-config --libs-only-L --libs-only-l $packages)
	for file in "$here/ofono/ofono.c" "$OFONO/src/smsutil.c" "$OFONO/src/util.c" "$OFONO/src/storage.c"; do
		# shellcheck disable=SC2086
		gcc -O2 -w -DSTORAGEDIR='"storage"' -DCONFIGDIR='"config"' -I"$room/include" \
			-I"$OFONO/src" $headers -c "$file" -o "$room/$(basename "$file" .c).o"
	done
	rm -f "$room/libofono.a"
	ar rcs "$room/libofono.a" "$room/ofono.o" "$room/smsutil.o" "$room/util.o" "$room/storage.o"
	# shellcheck disable=SC2086
	set -- --cfg ofono -L "$room" -l static=ofono $libraries "$@"
else
	echo "OFONO is not set: oFono is not timed" >&2
fi
# shellcheck disable=SC2086
rustc --edition 2024 -C opt-level=3 ${RUST_FLAGS:-} --check-cfg 'cfg(ofono)' "$here/src/main.rs" -o "$room/bench" "$@"
"$room/bench" "$seconds" "$word"
