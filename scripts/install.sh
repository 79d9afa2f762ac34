#!/usr/bin/env bash
# Puts gsmgate in place: the program, its man page, the completion for bash, the unit template and the tools.
#
# usage: install.sh [PREFIX [PROGRAM]]
#
# PREFIX is /usr/local without the word. PROGRAM is what `rt run` leaves in crates/gsmgate/out without the word. Where DESTDIR is set,
# everything goes below it, as for a package. Nothing is started, and no file outside PREFIX is written.
set -eu
top=$(cd "$(dirname "$0")/.." && pwd)
prefix=${1:-/usr/local}
program=${2:-$top/crates/gsmgate/out/gsmgate}
case $prefix in /*) ;; *) echo "install.sh: PREFIX is an absolute path" >&2; exit 2 ;; esac
[ -f "$program" ] && [ -x "$program" ] || { echo "install.sh: $program is not there; run 'rt run' in crates/gsmgate first" >&2; exit 1; }
to=${DESTDIR:-}$prefix

install -D -m 755 "$program" "$to/bin/gsmgate"
install -D -m 644 "$top/dist/man/gsmgate.1" "$to/share/man/man1/gsmgate.1"
install -D -m 644 "$top/dist/completions/gsmgate.bash" "$to/share/bash-completion/completions/gsmgate"
install -d "$to/lib/systemd/system" "$to/lib/gsmgate"
sed "s#/usr/local/bin#$prefix/bin#" "$top/dist/systemd/gsmgate@.service" >"$to/lib/systemd/system/gsmgate@.service"
chmod 644 "$to/lib/systemd/system/gsmgate@.service"
for tool in "$top"/tools/*; do
  name=${tool##*/}
  case $name in
  tests | __pycache__) ;;
  *.py) install -m 644 "$tool" "$to/lib/gsmgate/$name" ;;
  *)
    install -m 755 "$tool" "$to/lib/gsmgate/$name"
    ln -sf "../lib/gsmgate/$name" "$to/bin/gsmgate-${name//_/-}"
    ;;
  esac
done
echo "gsmgate is in $prefix/bin"
