#!/bin/sh
# Times calls of the library for C, which stands below PREFIX, beside the library's own, which run.sh has built; beside
# oFono's where run.sh was given its source, and beside libosmogsm's where pkg-config knows it (Debian's
# libosmocore-dev).
set -eu
here=$(cd "$(dirname "$0")" && pwd)
prefix=${PREFIX:-/usr/local}
room=${BENCH_ROOM:-${TMPDIR:-/tmp}/sms-bench}
archive=$room/crates/sms_bench/out/libsms_bench.a
[ -f "$archive" ] || { echo "run bench/run.sh first: there is no $archive" >&2; exit 1; }
set --
if [ -f "$room/libofono.a" ]; then
	# shellcheck disable=SC2046
	set -- "$@" -DOFONO "$room/libofono.a" $(pkg-config --libs glib-2.0 ell)
fi
if pkg-config --exists libosmogsm 2>/dev/null; then
	# shellcheck disable=SC2046
	set -- "$@" -DOSMOGSM $(pkg-config --cflags --libs libosmogsm libosmocore)
fi
${CC:-cc} -O2 -Wall -Wextra "-I$prefix/include" "$here/c/calls.c" "$archive" "$(dirname "$(rt doc)")/c/liblibc_c.a" \
	"-L$prefix/lib" -lsms "-Wl,-rpath,$prefix/lib" "$@" -o "$room/calls"
"$room/calls"
