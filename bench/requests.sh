#!/bin/sh
# Counts the requests for memory of single calls, and refuses each in turn; run.sh must have built the library before.
set -eu
here=$(cd "$(dirname "$0")" && pwd)
room=${BENCH_ROOM:-${TMPDIR:-/tmp}/sms-bench}
gcc -O2 -Wl,--wrap=malloc,--wrap=realloc "$here/requests.c" -o "$room/requests" \
	-L "$room/crates/sms_bench/out" -lsms_bench "$(dirname "$(rt doc)")/c/liblibc_c.a"
"$room/requests"
