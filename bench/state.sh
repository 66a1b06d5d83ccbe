#!/bin/sh
# Times how the library for C, which stands below PREFIX, saves a gateway's joiner and reads it back: state.sh [TURNS].
# c/state.c says what the joiner holds and what is told.
set -eu
here=$(cd "$(dirname "$0")" && pwd)
prefix=${PREFIX:-/usr/local}
room=$(mktemp -d)
trap 'rm -rf "$room"' EXIT
trap 'exit 1' HUP INT TERM
${CC:-cc} -O2 -Wall -Wextra "-I$prefix/include" "$here/c/state.c" "-L$prefix/lib" -lsms "-Wl,-rpath,$prefix/lib" \
	-o "$room/state"
"$room/state" "$@"
