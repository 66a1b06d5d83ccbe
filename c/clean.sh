#!/bin/sh
# Runs the pages' lines in a bare Debian 12, one by one, as someone would who has just installed it: how docs/C.md says that
# the library is built and README.md that the program is installed; then what the pages say without a line. As root:
#   c/clean.sh PREFIX [DEBS]
# PREFIX is where c/build.sh has put the library, and the program is built in crates/sms/out; nothing is proved. DEBS has
# the packages of c/deb.sh; else those are tried that the page's line makes. It needs debootstrap, the network and 3 GB
# below TMPDIR, and takes a quarter of an hour. The mounts are in a name space of its own, which ends with it.
set -eu
here=$(CDPATH='' cd -- "$(dirname -- "$0")" && pwd -P)
# shellcheck source=needs.sh source-path=SCRIPTDIR
. "$here/needs.sh"
top=$(dirname -- "$here")
abi=$(sed 's/[.].*//' "$here/VERSION")
release=bookworm
if [ $# != 1 ] && [ $# != 2 ]; then
	echo "usage: c/clean.sh PREFIX [DEBS]" >&2
	exit 2
fi
[ "$(id -u)" = 0 ] || { echo "only root can make a Debian of its own" >&2; exit 2; }
needs_tool debootstrap "Debian's package debootstrap has it"
for file in lib/libsms.a "lib/libsms.so.$abi" include/sms.h; do needs_file "$1/$file" "c/build.sh makes it"; done
needs_file "$top/crates/sms/out/sms" "run 'rt run' in crates/sms first"

if [ -z "${CLEAN_ROOM:-}" ]; then
	CLEAN_ROOM=$(mktemp -d)
	export CLEAN_ROOM
	child=
	# All that runs in the name space ends with its first process, and its mounts with that.
	trap '[ -z "$child" ] || { kill -KILL "$child" && sleep 1; } || :; rm -rf --one-file-system "$CLEAN_ROOM"' EXIT
	trap 'exit 1' HUP INT TERM
	unshare --mount --pid --fork --kill-child -- "$0" "$@" &
	child=$!
	status=0
	wait "$child" || status=$?
	child=
	exit "$status"
fi
room=$CLEAN_ROOM
root=$room/root

# as_root COMMAND..
as_root() {
	chroot "$root" env -i HOME=/root LANG=C.UTF-8 DEBIAN_FRONTEND=noninteractive \
		PATH=/usr/local/sbin:/usr/local/bin:/usr/sbin:/usr/bin:/sbin:/bin "$@"
}

# quietly COMMAND..: what it prints is shown only if it fails.
quietly() {
	"$@" >"$room/log" 2>&1 || { tail -n 40 "$room/log" >&2; exit 1; }
}

# A bare Debian with a user who may call sudo, from the mirror that apt has here.
make_root() {
	# shellcheck disable=SC2016
	mirror=$(apt-get indextargets --format '$(REPO_URI)' 'Created-By: Packages' "Release: $release" 'Component: main' | head -n 1)
	mirror=${mirror:-http://deb.debian.org/debian}
	echo "== a bare Debian ($release) from $mirror"
	quietly debootstrap --variant=minbase --include=sudo "$release" "$root" "$mirror"
	mount -t proc proc "$root/proc"
	echo "127.0.0.1 localhost $(uname -n)" >"$root/etc/hosts"
	as_root useradd --create-home --shell /bin/bash user
	echo 'user ALL=(ALL) NOPASSWD: ALL' >"$root/etc/sudoers.d/user"
	echo 'APT::Get::Assume-Yes "true";' >"$root/etc/apt/apt.conf.d/90yes"
	quietly as_root apt-get update
}

# Of the checkout what the pages and the tests of the faces read, and the program; the library below /built; the packages, if
# they are given.
put_files() {
	mkdir -p "$root/built/lib" "$root/built/include" "$root/home/user/sms/crates/sms/out" "$root/debs"
	tar -C "$top" --exclude=target --exclude=__pycache__ -cf - c crates/sms_c/src docs python rust README.md install.sh |
		tar -C "$root/home/user/sms" -xf -
	cp "$top/crates/sms/out/sms" "$root/home/user/sms/crates/sms/out/"
	cp "$1/lib/libsms.a" "$1/lib/libsms.so.$abi" "$root/built/lib/"
	ln -s "libsms.so.$abi" "$root/built/lib/libsms.so"
	cp "$1/include/sms.h" "$root/built/include/"
	[ -z "${2:-}" ] || cp "$2"/*.deb "$root/debs/"
	as_root chown -R user:user /home/user /debs
	: >"$root/tally"
	chmod 666 "$root/tally"
}

# What runs in the shell of the user: each line, its titles and what it printed last, and whether it failed.
put_runner() {
	cat >"$root/runner" <<'END'
cd "$1" || exit 1
while IFS= read -r line <&3; do
	case $line in
	'' | rt\ *) [ -z "$line" ] || printf '$ %s\n    left out: it needs the kit\n' "$line"; continue ;;
	esac
	printf '$ %s\n' "$line"
	if eval "$line" </dev/null >/tmp/told 2>&1; then
		echo ok >>/tally
		{ grep -e '^==' -e '^left out' /tmp/told; tail -n 3 /tmp/told; } | sed 's/^/    /'
	else
		echo "FAILED with $?: $line" | tee -a /tally
		tail -n 30 /tmp/told | sed 's/^/    /'
	fi
done 3</lines
END
}

# session TITLE FOLDER: the lines on standard input are run in one shell of the user, which begins in the folder of the
# checkout. BUILT stands for the proof, neither cargo nor pip may ask a registry, and LIBSMS is the package with the library.
# The checkout there has no git that could name a maintainer.
session() {
	cat >"$root/lines"
	echo "== $1"
	chroot --userspec=user:user "$root" env -i HOME=/home/user USER=user LANG=C.UTF-8 PATH=/usr/local/bin:/usr/bin:/bin \
		DEBFULLNAME="${DEBFULLNAME:-$(git -C "$top" log -1 --format=%an)}" DEBEMAIL="${DEBEMAIL:-$(git -C "$top" log -1 --format=%ae)}" \
		BUILT=/built LIBSMS="libsms$abi" CARGO_NET_OFFLINE=true PIP_NO_INDEX=1 bash /runner "/home/user/sms/$2"
}

# page PAGE HEADING FOLDER: each block of lines below the heading, in a shell of its own.
page() {
	rm -f "$room"/block.*
	awk -v heading="## $2" -v to="$room/block" '
		/^## / { on = $0 == heading }
		!/^    / { fresh = 1; next }
		on { if (fresh) { file = sprintf("%s.%02d", to, ++count) }; fresh = 0; print substr($0, 5) >file }' "$top/$1"
	for block in "$room"/block.*; do
		session "$1, $2" "$3" <"$block"
	done
}

# What the pages say of each face, with no line for it.
faces() {
	session "C, with gcc and clang" . <<'END'
PREFIX=$HOME/.local c/build.sh
PREFIX=$HOME/.local CCS=gcc CXXS=g++ UNITS=1000 c/check.sh
sudo apt install clang valgrind mypy
PREFIX=$HOME/.local CCS=clang CXXS=clang++ UNITS=1000 c/check.sh
PREFIX=$HOME/.local c/build.sh --uninstall
END
	session "a folder with a blank, rights and what is missing" . <<'END'
PREFIX="$HOME/a b" c/build.sh
export PKG_CONFIG_PATH="$HOME/a b/lib/pkgconfig"
eval "cc c/examples/read.c $(pkg-config --cflags --libs sms) -o /tmp/blank"
LD_LIBRARY_PATH="$HOME/a b/lib" /tmp/blank | cmp - c/examples/read.out
export CARGO_TARGET_DIR=/tmp/target-of-blank
cargo test --locked --manifest-path rust/Cargo.toml
SMS_STATIC=1 cargo test --locked --manifest-path rust/Cargo.toml
RUSTDOCFLAGS=-Dwarnings cargo doc --no-deps --locked --manifest-path rust/Cargo.toml
PREFIX="$HOME/a b" c/build.sh --uninstall
touch rust/build.rs && cargo check --locked --manifest-path rust/Cargo.toml 2>&1 | grep 'install libsms-dev'
PREFIX="$HOME/a b" ./install.sh
"$HOME/a b/bin/sms" show deliver 040BC87238880900F10000993092516195800AE8329BFD4697D9EC37
PREFIX="$HOME/a b" ./install.sh --uninstall
test -z "$(find "$HOME/a b" ! -type d)"
DESTDIR="$HOME/a stage" PREFIX=/opt/sms c/build.sh && test -f "$HOME/a stage/opt/sms/lib/libsms.a"
PREFIX=/usr/local c/build.sh; test $? = 2
PREFIX=/usr/local ./install.sh; test $? = 2
BUILT='' PREFIX=$HOME/none c/build.sh; test $? = 2 -a ! -e $HOME/none
END
	session "Python: an editable install, and a source archive" . <<'END'
python3 -m venv /tmp/editable
/tmp/editable/bin/pip install -e ./python
SMS_LIBRARY=/built/lib/libsms.so /tmp/editable/bin/python python/examples/read.py | cmp - c/examples/read.out
sudo apt install python3-build
python3 -m build --outdir /tmp/dist python
python3 -m venv /tmp/archive
SMS_LIBRARY=/built/lib/libsms.so /tmp/archive/bin/pip install /tmp/dist/sms-*.tar.gz
/tmp/archive/bin/python -m unittest discover -q -s python/tests
! SMS_LIBRARY=lib/libsms.so /tmp/archive/bin/pip install --force-reinstall ./python
END
}

packages() {
	session "the packages, installed, used and removed" . <<'END'
sudo apt install --no-install-recommends lintian
lintian --fail-on error /debs/*.deb
sudo apt purge $LIBSMS libsms-dev sms python3-sms
sudo apt install /debs/*.deb
dpkg --verify $LIBSMS libsms-dev sms python3-sms
/sbin/ldconfig -p | grep "libsms.so.${LIBSMS#libsms} "
sms show deliver 040BC87238880900F10000993092516195800AE8329BFD4697D9EC37
test -f /usr/share/man/man1/sms.1.gz
cc c/examples/read.c $(pkg-config --cflags --libs sms) -o /tmp/packaged
/tmp/packaged | cmp - c/examples/read.out
cc c/examples/join.c -static $(pkg-config --cflags --libs sms) -o /tmp/packaged-static
/tmp/packaged-static | cmp - c/examples/join.out
python3 -m unittest discover -q -s python/tests
cargo test --locked --manifest-path rust/Cargo.toml --target-dir /tmp/target-of-packages
sudo apt purge $LIBSMS libsms-dev sms python3-sms
! /tmp/packaged
! test -e /usr/bin/sms
test -z "$(find /usr -name '*libsms*' -o -path '*/dist-packages/sms*' -o -name sms.h)"
END
}

make_root
put_files "$@"
put_runner
page docs/C.md "Build it" .
page README.md Install crates/sms
[ -n "${2:-}" ] || cp "$root"/tmp/debs/*.deb "$root/debs/"
packages
faces
passed=$(grep -c '^ok$' "$root/tally" || :)
grep -v '^ok$' "$root/tally" || :
echo "$passed of $(wc -l <"$root/tally") lines passed"
[ "$passed" = "$(wc -l <"$root/tally")" ]
