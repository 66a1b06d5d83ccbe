#!/bin/sh
# Builds libsms.a and libsms.so and puts them, sms.h and sms.pc below PREFIX, from whatever folder it is called in:
#   PREFIX=/usr/local c/build.sh                  (DESTDIR is heeded)
#   PREFIX=/usr/local BUILT=DIR c/build.sh        takes them from DIR, an earlier PREFIX, and builds nothing
#   PREFIX=/usr/local c/build.sh --uninstall      takes them away
# What is not proved yet on this machine it proves first, which from nothing takes minutes.
set -eu
here=$(CDPATH='' cd -- "$(dirname -- "$0")" && pwd -P)
# shellcheck source=needs.sh source-path=SCRIPTDIR
. "$here/needs.sh"
prefix=${PREFIX:-/usr/local}
root=${DESTDIR:-}
lib=$root$prefix/lib
version=$(cat "$here/VERSION")
abi=${version%%.*}
shared=libsms.so.$abi
case $prefix in
/*) ;;
*) echo "PREFIX is a path from the root, and not $prefix" >&2; exit 2 ;;
esac
case $# in
0) uninstall= ;;
*) uninstall=$1; [ "$*" = --uninstall ] || { echo "usage: c/build.sh [--uninstall]" >&2; exit 2; } ;;
esac
needs_right "$lib/pkgconfig" "$lib" "$root$prefix/include"
if [ -n "$uninstall" ]; then
	rm -f "$lib/libsms.a" "$lib/libsms.so" "$lib/$shared" "$lib/pkgconfig/sms.pc" "$root$prefix/include/sms.h"
	echo "libsms is no longer below $root$prefix"
	exit
fi
needs_tool install "Debian's package coreutils has it"
room=$(mktemp -d)
trap 'rm -rf "$room"' EXIT
trap 'exit 1' HUP INT TERM

# Takes the library of an earlier PREFIX, if it is of this header.
take() {
	for file in include/sms.h lib/libsms.a "lib/$shared"; do
		needs_file "$BUILT/$file" "BUILT is a folder that c/build.sh has filled"
	done
	cmp -s "$BUILT/include/sms.h" "$here/sms.h" || { echo "$BUILT/include/sms.h is of another sms" >&2; exit 2; }
	cp "$BUILT/lib/libsms.a" "$BUILT/lib/$shared" "$room/"
}

needs_tools() {
	needs_tool rt "the kit has it, and with BUILT=DIR nothing is built"
	for tool in ar ld objcopy; do needs_tool "$tool" "Debian's package build-essential has it"; done
	echo 'int main(void) { return 0; }' >"$room/empty.c"
	${CC:-cc} "$room/empty.c" -o "$room/empty" >"$room/log" 2>&1 && return
	cat "$room/log" >&2
	echo "${CC:-cc} makes no program: Debian's package build-essential has a compiler" >&2
	exit 2
}

# The library's object and the kit's heap, which calls malloc, realloc and free, become one object that shows the names of
# sms.map alone, so that another static library of Rattle can stand beside it.
build() {
	kit=$(dirname "$(rt doc)")
	if ! (cd "$here/../crates/sms_c" && rt lib) >"$room/log" 2>&1; then
		tail -n 40 "$room/log" >&2
		exit 1
	fi
	sed "s/@abi@/$abi/" "$here/sms.map" >"$room/sms.map"
	sed -n 's/^ *\(sms_.*\);$/\1/p' "$room/sms.map" >"$room/names"
	(
		cd "$room"
		ar x "$here/../crates/sms_c/out/libsms_c.a"
		ar x "$kit/c/liblibc_c.a"
		ld -r -o sms.o sms_c.o heap.pic.o
		objcopy --keep-global-symbols=names sms.o
		ar rcs libsms.a sms.o
	)
	${CC:-cc} -shared -o "$room/$shared" "-Wl,-soname,$shared" "-Wl,--version-script=$room/sms.map" \
		-Wl,--gc-sections -Wl,-z,relro,-z,now -Wl,-z,noexecstack -Wl,--no-undefined -s \
		-Wl,--whole-archive "$room/libsms.a" -Wl,--no-whole-archive
}

if [ -n "${BUILT:-}" ]; then
	take
else
	needs_tools
	build
fi
{
	printf 'prefix=%s\n' "$prefix" | sed 's/[][ "'\''\\`$&|;()<>*?]/\\&/g'
	sed "s|@version@|$version|" "$here/sms.pc.in"
} >"$room/sms.pc"
install -d "$lib/pkgconfig" "$root$prefix/include"
install -m 644 "$room/libsms.a" "$lib/"
install -m 755 "$room/$shared" "$lib/"
ln -sfn "$shared" "$lib/libsms.so"
install -m 644 "$here/sms.h" "$root$prefix/include/"
install -m 644 "$room/sms.pc" "$lib/pkgconfig/"
echo "libsms $version is below $root$prefix"
