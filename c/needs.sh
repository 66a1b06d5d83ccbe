# shellcheck shell=sh
# What a script looks at before it begins: what is missing it says on standard error, and ends with status 2.

# needs_tool TOOL WHERE: WHERE says what brings it.
needs_tool() {
	command -v "$1" >/dev/null 2>&1 || { echo "$1 is missing: $2" >&2; exit 2; }
}

# needs_file FILE WHERE
needs_file() {
	[ -f "$1" ] || { echo "$1 is missing: $2" >&2; exit 2; }
}

# needs_right FOLDER..: each can be written to, or made below what stands there.
needs_right() {
	for folder; do
		above=$folder
		while [ ! -e "$above" ]; do above=$(dirname -- "$above"); done
		if [ ! -d "$above" ] || [ ! -w "$above" ]; then
			echo "$above may not be written to: name a PREFIX of your own, or call this as root" >&2
			exit 2
		fi
	done
}
