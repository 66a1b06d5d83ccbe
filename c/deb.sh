#!/bin/sh
# Makes Debian packages of what is built, from whatever folder it is called in:
#   c/deb.sh PREFIX OUT
# PREFIX is where c/build.sh has put the library, and the program is built in crates/sms/out. Into OUT come libsmsN (N is
# the first number of VERSION), libsms-dev, sms and python3-sms. DEBFULLNAME and DEBEMAIL name the maintainer, and SOURCE_DATE_EPOCH the moment; else
# git tells them.
set -eu
here=$(CDPATH='' cd -- "$(dirname -- "$0")" && pwd -P)
# shellcheck source=needs.sh source-path=SCRIPTDIR
. "$here/needs.sh"
[ $# = 2 ] || { echo "usage: c/deb.sh PREFIX OUT" >&2; exit 2; }
top=$(dirname -- "$here")
upstream=$(cat "$here/VERSION")
abi=${upstream%%.*}
shared=libsms.so.$abi
library=libsms$abi
prefix=$1
out=$2
program=$top/crates/sms/out/sms
for tool in dpkg-deb dpkg dpkg-shlibdeps strip gzip; do
	needs_tool "$tool" "Debian's package build-essential has it"
done
needs_tool python3 "Debian's package python3 has it"
for file in lib/libsms.a "lib/$shared" lib/pkgconfig/sms.pc include/sms.h; do
	needs_file "$prefix/$file" "c/build.sh makes it"
done
needs_file "$program" "run 'rt run' in crates/sms first"
needs_right "$out"
mkdir -p "$out"
out=$(CDPATH='' cd -- "$out" && pwd -P)
prefix=$(CDPATH='' cd -- "$prefix" && pwd -P)

of_commit() {
	git -C "$top" log -1 --format="$1" 2>/dev/null
}

SOURCE_DATE_EPOCH=${SOURCE_DATE_EPOCH:-$(of_commit %ct || stat -c %Y "$here/VERSION")}
export SOURCE_DATE_EPOCH
name=${DEBFULLNAME:-$(of_commit %an || id -un)}
maintainer="$name <${DEBEMAIL:-$(of_commit %ae || echo "$(id -un)@$(uname -n)")}>"
version=$upstream-0sms1 # below what Debian itself would make of it
machine=$(dpkg --print-architecture)
triplet=$(dpkg-architecture -qDEB_HOST_MULTIARCH)
room=$(mktemp -d)
trap 'rm -rf "$room"' EXIT
trap 'exit 1' HUP INT TERM

# put MODE FILE PACKAGE FOLDER: the file stands in the package's folder.
put() {
	install -D -m "$1" -t "$room/$3/$4" "$2"
}

# wants FILE..: the packages that the libraries which the files name are in.
wants() {
	mkdir -p "$room/wants/debian"
	printf 'Source: sms\n\nPackage: sms\nArchitecture: %s\n' "$machine" >"$room/wants/debian/control"
	(cd "$room/wants" && dpkg-shlibdeps -O "$@" 2>"$room/wants/told") >"$room/wants/answer" ||
		{ cat "$room/wants/told" >&2; exit 1; }
	sed -n 's/^shlibs:Depends=//p' "$room/wants/answer"
}

# documented PACKAGE: it has its copyright and its changelog.
documented() {
	doc=$room/$1/usr/share/doc/$1
	mkdir -p "$doc"
	cat >"$doc/copyright" <<END
sms reads, writes, cuts and joins short messages (3GPP TS 23.038, 23.040, 24.011).

Copyright $(date -u -d "@$SOURCE_DATE_EPOCH" +%Y) $name

The sources name no licence: ask $maintainer before you pass it on.
END
	{
		printf 'sms (%s) unstable; urgency=medium\n\n  * Package of sms %s.\n\n' "$version" "$upstream"
		printf ' -- %s  %s\n' "$maintainer" "$(LC_ALL=C date -u -R -d "@$SOURCE_DATE_EPOCH")"
	} | gzip -9n >"$doc/changelog.Debian.gz"
}

# finish PACKAGE ARCHITECTURE SECTION DEPENDS MULTI-ARCH, with the description on standard input: the package is in OUT.
finish() {
	documented "$1"
	control=$room/$1/DEBIAN
	mkdir -p "$control"
	(cd "$room/$1" && find usr -type f -exec md5sum {} +) | LC_ALL=C sort -k 2 >"$control/md5sums"
	size=$(du -k -s --apparent-size "$room/$1/usr" | cut -f 1)
	{
		printf 'Package: %s\nSource: sms\nVersion: %s\nArchitecture: %s\n' "$1" "$version" "$2"
		printf 'Maintainer: %s\nInstalled-Size: %s\nSection: %s\nPriority: optional\n' "$maintainer" "$size" "$3"
		printf 'Depends: %s\nMulti-Arch: %s\nDescription: ' "$4" "$5"
		cat
	} >"$control/control"
	chmod -R u=rwX,go=rX "$room/$1"
	dpkg-deb --root-owner-group -Zxz --build "$room/$1" "$out" >/dev/null
	echo "$out/${1}_${version}_$2.deb"
}

libsms() {
	put 644 "$prefix/lib/$shared" "$library" "usr/lib/$triplet"
	strip --strip-unneeded "$room/$library/usr/lib/$triplet/$shared"
	mkdir -p "$room/$library/DEBIAN"
	echo "activate-noawait ldconfig" >"$room/$library/DEBIAN/triggers"
	echo "libsms $abi $library (>= $upstream)" >"$room/$library/DEBIAN/shlibs"
	finish "$library" "$machine" libs "$(wants "$prefix/lib/$shared")" same <<END
short messages read, written, cut and joined (library)
 The codec and the joiner of sms, for C and what calls C: units of 3GPP TS
 23.040, packets of TS 24.011 and texts of TS 23.038. Each function is proved
 to do what its contract says.
END
}

libsms_dev() {
	lib=usr/lib/$triplet
	put 644 "$prefix/include/sms.h" libsms-dev usr/include
	put 644 "$prefix/lib/libsms.a" libsms-dev "$lib"
	strip --strip-debug --enable-deterministic-archives "$room/libsms-dev/$lib/libsms.a"
	ln -s "$shared" "$room/libsms-dev/$lib/libsms.so"
	sed -e 's|^prefix=.*|prefix=/usr|' -e "s|^libdir=.*|libdir=\${prefix}/lib/$triplet|" \
		"$prefix/lib/pkgconfig/sms.pc" >"$room/sms.pc"
	put 644 "$room/sms.pc" libsms-dev "$lib/pkgconfig"
	for example in "$here"/examples/*.c; do put 644 "$example" libsms-dev usr/share/doc/libsms-dev/examples; done
	finish libsms-dev "$machine" libdevel "$library (= $version)" same <<END
short messages read, written, cut and joined (files for C)
 The header, the static library and the file for pkg-config of $library, and
 programs that show how it is called.
END
}

sms() {
	put 755 "$program" sms usr/bin
	strip --strip-unneeded "$room/sms/usr/bin/sms"
	gzip -9n <"$top/docs/sms.1" >"$room/sms.1.gz"
	put 644 "$room/sms.1.gz" sms usr/share/man/man1
	for page in COMMANDS.md SCRIPTS.md; do put 644 "$top/docs/$page" sms usr/share/doc/sms; done
	finish sms "$machine" utils "$(wants -e "$program")" foreign <<END
reads, writes, cuts and joins short messages
 The command shows the units of 3GPP TS 23.040 and the packets of TS 24.011,
 writes them, cuts texts into segments and joins a modem's listing into texts,
 and plays whole networks of phones from a script.
END
}

python3_sms() {
	site=$room/python3-sms/usr/lib/python3/dist-packages
	(cd "$top/python" && unset SMS_LIBRARY &&
		PYTHONDONTWRITEBYTECODE=1 python3 -c 'import backend, sys; backend.build_wheel(sys.argv[1])' "$room")
	mkdir -p "$site" "$room/python3-sms/DEBIAN"
	python3 -m zipfile -e "$room"/sms-*-py3-none-any.whl "$site"
	rm "$site"/sms-*.dist-info/RECORD
	for example in "$top"/python/examples/*.py; do put 644 "$example" python3-sms usr/share/doc/python3-sms/examples; done
	printf '#!/bin/sh\nset -e\n! command -v py3compile >/dev/null || py3compile -p python3-sms\n' \
		>"$room/python3-sms/DEBIAN/postinst"
	printf '#!/bin/sh\nset -e\n! command -v py3clean >/dev/null || py3clean -p python3-sms\n' \
		>"$room/python3-sms/DEBIAN/prerm"
	chmod 755 "$room/python3-sms/DEBIAN/postinst" "$room/python3-sms/DEBIAN/prerm"
	finish python3-sms all python "$library (>= $upstream), python3:any" foreign <<END
short messages read, written, cut and joined (Python 3)
 The package sms of Python over $library: units and texts as classes and
 strings, and a joiner.
END
}

libsms
libsms_dev
sms
python3_sms
