#!/bin/sh
# Times `sms join` over 1,000,000 units of 10,000 origins (or as many as the first word says), which units.awk prints: in
# one process, in four between which GNU parallel (Debian's `parallel`) divides them by TP-OA, and in four between which
# divide.awk does. All must give the same texts. GNU parallel hands on the lines of a part in blocks that are not quite in
# order: so more sets are left open, and a text may have the moment of another segment, which is not compared. It needs
# crates/sms/out/sms, which `rt run` in crates/sms leaves there; PROGRAM names another one.
set -eu
here=$(cd "$(dirname "$0")" && pwd)
room=${BENCH_ROOM:-${TMPDIR:-/tmp}/sms-bench}
program=${PROGRAM:-$here/../crates/sms/out/sms}
count=${1:-1000000}
export here room program
mkdir -p "$room"
awk -v LINES="$count" -f "$here/units.awk" > "$room/units.txt"
rm -f "$room/joined"

# timed NAME COMMAND: how long a command of the shell takes that writes its texts into files named part.*
timed() {
	rm -f "$room"/part.*
	begin=$(date +%s%N)
	sh -c "$2"
	took=$((($(date +%s%N) - begin) / 1000000))
	echo "$1: $took ms, $((count * 1000 / took)) units a second"
	cut -d " " -f 2- "$room"/part.* | sort > "$room/sorted"
	[ -f "$room/joined" ] || cp "$room/sorted" "$room/joined"
	cmp "$room/sorted" "$room/joined"
}

for turn in 1 2 3; do
	timed "one process" '"$program" join < "$room/units.txt" > "$room/part.0"'
	timed "four, by GNU parallel" 'parallel --will-cite --pipe --shard \
		"1 \$_ = substr \$_, 2, 2 * int((hex(substr \$_, 2, 2) + 5) / 2)" \
		-j 4 "$program" join --open 10000 < "$room/units.txt" > "$room/part.0"'
	timed "four, by awk" 'awk -v JOIN="$program join > $room/part." -f "$here/divide.awk" "$room/units.txt"'
done
