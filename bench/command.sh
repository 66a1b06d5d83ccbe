#!/bin/sh
# Times `sms show deliver --lines` and `sms join`, both with --json too, over 1,000,000 units of 10,000 origins (or as many
# as the first word says), which units.awk prints, on one processor, and tells the most memory that each took; beside tshark
# and python-gammu where they are installed (Debian's tshark and python3-gammu), on the first 100,000. It needs
# crates/sms/out/sms, which `rt run` in crates/sms leaves there; PROGRAM names another one.
set -eu
here=$(cd "$(dirname "$0")" && pwd)
room=${BENCH_ROOM:-${TMPDIR:-/tmp}/sms-bench}
program=${PROGRAM:-$here/../crates/sms/out/sms}
count=${1:-1000000} few=100000
mkdir -p "$room"
awk -v LINES="$count" -f "$here/units.awk" > "$room/units.txt"
head -n "$few" "$room/units.txt" > "$room/few.txt"

# timed NAME COUNT INPUT CMD..: the processor time, the units a second of it, the time that passed, and the most memory
timed() {
	name=$1 units=$2 input=$3
	shift 3
	taskset -c 0 /usr/bin/env python3 - "$name" "$units" "$input" "$@" <<'PY'
import re, resource, subprocess, sys, time
name, units, source, *words = sys.argv[1:]
best, passed, most = None, None, 0
for turn in range(3):
    begin, before = time.monotonic(), resource.getrusage(resource.RUSAGE_CHILDREN)
    with open(source, "rb") as given:
        child = subprocess.Popen(words, stdin=given, stdout=subprocess.DEVNULL)
    while child.poll() is None:
        with open(f"/proc/{child.pid}/status") as told:
            most = max([most, *map(int, re.findall(r"VmHWM:\s*(\d+)", told.read()))])
        time.sleep(0.02)
    took, after = time.monotonic() - begin, resource.getrusage(resource.RUSAGE_CHILDREN)
    used = after.ru_utime + after.ru_stime - before.ru_utime - before.ru_stime
    best = used if best is None else min(best, used)
    passed = took if passed is None else min(passed, took)
    if took > 20:
        break
print(f"{name}: {best:.2f} s of the processor, {int(int(units) / best):,} units a second; {passed:.2f} s passed; "
      f"{most:,} KB, status {child.returncode}")
PY
}

timed "sms show deliver --lines" "$count" "$room/units.txt" "$program" show deliver --lines
timed "sms show deliver --lines --json" "$count" "$room/units.txt" "$program" show deliver --lines --json
timed "sms show deliver --lines --json, $few" "$few" "$room/few.txt" "$program" show deliver --lines --json
timed "sms join" "$count" "$room/units.txt" "$program" join
timed "sms join --json" "$count" "$room/units.txt" "$program" join --json
if command -v tshark > /dev/null; then
	python3 "$here/others.py" pcap < "$room/few.txt" > "$room/few.pcap"
	timed "tshark -T json, $few" "$few" "$room/few.pcap" tshark -r "$room/few.pcap" -T json
fi
if /usr/bin/python3 -c 'import gammu' 2> /dev/null; then
	timed "python-gammu, $few" "$few" "$room/few.txt" /usr/bin/python3 "$here/others.py" gammu
fi
