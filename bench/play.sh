#!/bin/sh
# Times `sms play` over scripts of 25,000, 50,000 and 100,000 lines (or of as many as the words say), which script.awk
# prints. It needs crates/sms/out/sms, which `rt run` in crates/sms leaves there. PROGRAM names another one, TICK the
# seconds between two texts, and OPTIONS what `play` is told besides, as --orderly.
set -eu
here=$(cd "$(dirname "$0")" && pwd)
room=${BENCH_ROOM:-${TMPDIR:-/tmp}/sms-bench}
program=${PROGRAM:-$here/../crates/sms/out/sms}
mkdir -p "$room"
[ $# -gt 0 ] || set -- 25000 50000 100000
for lines in "$@"; do
	awk -v LINES="$lines" -v TICK="${TICK:-0}" -f "$here/script.awk" > "$room/script.txt"
	for turn in 1 2 3; do
		begin=$(date +%s%N)
		"$program" play ${OPTIONS:-} < "$room/script.txt" > "$room/transcript.txt"
		end=$(date +%s%N)
		echo "$lines lines: $(((end - begin) / 1000000)) ms, $(((end - begin) / lines)) ns a line," \
			"$(wc -l < "$room/transcript.txt") lines of transcript"
	done
done
