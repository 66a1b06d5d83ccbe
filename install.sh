#!/bin/sh
# Installs the built program and its manual page below PREFIX, from whatever folder it is called in:
#   PREFIX=/usr/local ./install.sh                  (DESTDIR is heeded; a folder that is named comes before PREFIX)
#   PREFIX=/usr/local ./install.sh --uninstall      takes them away
set -eu
here=$(CDPATH='' cd -- "$(dirname -- "$0")" && pwd -P)
# shellcheck source=c/needs.sh source-path=SCRIPTDIR
. "$here/c/needs.sh"
uninstall=
if [ "${1:-}" = --uninstall ]; then
	uninstall=$1
	shift
fi
case $#${1:-} in
0 | 1[!-]*) ;;
*) echo "usage: install.sh [--uninstall] [PREFIX]" >&2; exit 2 ;;
esac
prefix=${1:-${PREFIX:-/usr/local}}
case $prefix in
/*) ;;
*) prefix=$PWD/$prefix ;;
esac
bin=${DESTDIR:-}$prefix/bin
man=${DESTDIR:-}$prefix/share/man/man1
built=$here/crates/sms/out/sms
needs_right "$bin" "$man"
if [ -n "$uninstall" ]; then
	rm -f "$bin/sms" "$man/sms.1"
	exit
fi
needs_tool install "Debian's package coreutils has it"
if [ ! -x "$built" ]; then
	echo "not built: run 'rt run' in crates/sms first" >&2
	exit 1
fi
install -d "$bin" "$man"
install -m 755 "$built" "$bin/sms"
install -m 644 "$here/docs/sms.1" "$man/sms.1"
