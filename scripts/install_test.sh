#!/usr/bin/env bash
# Tries what scripts/install.sh puts in place. First in a folder of its own: the man page and FORMATS.md name the same options, ranges
# and defaults, and the program has them; the completion for bash; the unit template, whose command runs a call; each tool by its
# installed name. Then, with --clean, in a new root of Debian that mmdebstrap makes (root's rights, the network and some minutes), or in
# the root at the folder that is given: the man page, the completion as bash-completion loads it, the unit as systemd reads it, the tools.
# It wants the program as `rt run` leaves it in crates/gsmgate/out, or at the path in GSMGATE. What is missing is skipped, with a
# line that says so.
#
# usage: install_test.sh [--clean | ROOT]
. "$(dirname "$0")/../bench/common.sh"
failed=0
fail() { echo "failed: $*"; failed=1; }
place=$work/place
DESTDIR=$place "$top/scripts/install.sh" /opt/gate "$program" >"$work/said" || fail "install.sh: $(cat "$work/said")"
here=$place/opt/gate
gate=$here/bin/gsmgate
files="bin/gsmgate share/man/man1/gsmgate.1 share/bash-completion/completions/gsmgate lib/systemd/system/gsmgate@.service"
for file in $files; do [ -s "$here/$file" ] || fail "$file is not there"; done
"$top/scripts/install.sh" relative "$program" 2>/dev/null && fail "a relative prefix is taken"
"$top/scripts/install.sh" "$work/none" "$work/no program" 2>/dev/null && fail "a program that is not there is taken"
[ -e "$work/none" ] && fail "something was put in place without a program"

# The man page.
if has man groff; then
  said=$(LC_ALL=C.UTF-8 man --warnings -E UTF-8 -l "$here/share/man/man1/gsmgate.1" 2>&1 >"$work/page")
  [ -z "$said" ] || fail "the man page: $said"
  grep -q '^EXIT STATUS' "$work/page" || fail "the man page is not whole"
else
  echo "skipped: man and groff are not there (Debian's man-db, groff)"
fi

# Each option of serve, as the page, FORMATS.md and the program have it.
if has python3; then
  (cd "$work" && python3 - "$top" "$gate" <<'PY') || failed=1
import re, socket, struct, subprocess, sys, time
top, gate = sys.argv[1:]
page = open(f"{top}/dist/man/gsmgate.1").read()
formats = open(f"{top}/docs/FORMATS.md").read()
failed = False


def fail(what):
    global failed
    failed = True
    print(f"failed: {what}")


words = ["serve", "--reply", "127.0.0.1:28900", "--speaker", "heard", "--microphone", "mic", "--journals", "call"]
open("mic", "wb").write(bytes(320 * 3))


def serve(*more):
    ticks = [] if "--ticks" in more else ["--ticks", "1"]
    return subprocess.run([gate, *words, *ticks, *more, "127.0.0.1:28901"], stdout=subprocess.PIPE, text=True, timeout=60)


def paged(option):
    return re.search(r"\.BI \\-\\-%s [^\n]*\n(.*?)(?=\n\.TP|\n\.S[HS])" % option, page, re.S)


rows = re.findall(r"^\| `--(\w+)` \| (\d+) to ([^,:| ]+)[^|]* \| (\d+)[^|]* \|$", formats, re.M)
ranges = {name: (int(low), high, default.strip()) for name, low, high, default in rows}
for name in ("ring", "ticks", "report", "ssrc", "sequence", "stamp"):
    low, high, default = ranges[name]
    said = re.search(r"(\d+) to (\d+), default (\d+)", paged(name)[1])
    if not said or said.groups() != (str(low), high, default):
        fail(f"--{name}: the page says {said and said[0]}, FORMATS.md {low} to {high}, {default}")
    over = str(int(high) + 1)
    for value, wanted in ((str(low), 0), (high, 0), (over, 2), *([(str(low - 1), 2)] if low else [])):
        # (the most ticks would last days)
        if (name, value) != ("ticks", high) and serve(f"--{name}", value).returncode != wanted:
            fail(f"--{name} {value}: the status is not {wanted}")
if int(ranges["delay"][0]) != 0 or "0 to the ring's slots less one, default 3" not in paged("delay")[1]:
    fail("--delay: the page and FORMATS.md differ")
for ring in range(11):
    last = 2**ring - 1
    serve("--ring", str(ring))
    if open("call.player", "rb").read()[8:12] != struct.pack(">BBH", 1, ring, min(3, last)):
        fail(f"--ring {ring}: another ring, or another delay without the word")
    if [serve("--ring", str(ring), "--delay", str(it)).returncode for it in (last, last + 1)] != [0, 2]:
        fail(f"--ring {ring}: the delay's range is another")
serve()
if open("call.player", "rb").read()[9] != int(ranges["ring"][2]):
    fail("the ring without the word")

# What is sent without words: the first packet of return speech; a report after so many packets.
back = socket.socket(socket.AF_INET, socket.SOCK_DGRAM)
back.bind(("127.0.0.1", 28900))
serve()
first = struct.unpack(">BBHII", back.recv(2048)[:12])
if first != (128, 3, *(int(ranges[it][2]) for it in ("sequence", "stamp", "ssrc"))):
    fail(f"what is sent first has {first}")
sender = socket.socket(socket.AF_INET, socket.SOCK_DGRAM)
run = subprocess.Popen([gate, *words, "--ticks", "1000", "127.0.0.1:28901"], stdout=subprocess.DEVNULL)
sender.connect(("127.0.0.1", 28901))
sender.settimeout(0.002)
sent, report, bound = 0, b"", False
while run.poll() is None and not report:
    # (datagrams of one octet until somebody is bound, and then packets)
    packet = struct.pack(">BBHII", 128, 3, sent, 160 * sent, 9) + bytes([0xD0]) + bytes(32)
    try:
        sender.send(packet if bound else b"?")
        report = sender.recv(2048)
    except TimeoutError:
        sent += bound
        bound = True
    except ConnectionError:
        time.sleep(0.01)
run.terminate()
run.wait()
# Its block names the highest sequence number that it speaks of. They begin at 0, and the first packet of a source, which is on
# probation (RFC 3550 A.1), is none of the valid ones.
valid = int.from_bytes(report[16:20], "big")
if valid != int(ranges["report"][2]):
    fail(f"the first report is of {valid} valid packets")
# The numbers of make, and the key.
for name, low, high, at in (("SEED", 0, 2**64 - 1, 0), ("COUNT", 1, 1000000, 1), ("FILERS", 1, 64, 2)):
    for value, wanted in ((low, 0), (high if name != "COUNT" else 1000, 0), (high + 1, 2), (low - 1, 2)):
        numbers = ["1", "1", "1"]
        numbers[at] = str(value)
        if subprocess.run([gate, "make", *numbers, "made"], stdout=subprocess.DEVNULL).returncode != wanted:
            fail(f"make with {name} {value}: the status is not {wanted}")
for seed, wanted in (("0aF" * 21 + "9", 0), ("0" * 63, 2), ("0" * 65, 2), ("g" * 64, 2)):
    if serve("--seed", seed).returncode != wanted:
        fail(f"--seed {seed}: the status is not {wanted}")
options = set(re.findall(r"--(\w+)", formats.split("\n## ")[1])) - {"help", "version", "name"}
shown = set(re.findall(r"^\.BI? \\-\\-(\w+)", page, re.M))
if options != shown:
    fail(f"options of FORMATS.md alone: {options - shown}, of the page alone: {shown - options}")
statuses = [dict(re.findall(pattern, text)) for pattern, text in ((r"(?m)^\| (\d) \| (.*) \|$", formats), (r"\.TP\n\.B (\d)\n(.*)", page))]
if set(statuses[0]) & set("01234567") != set(statuses[1]):
    fail("the statuses of the page and of FORMATS.md differ")
print(f"options {len(options)}, statuses {len(statuses[1])}, as FORMATS.md and the program have them")
sys.exit(failed)
PY
else
  echo "skipped: python3 is not there"
fi

# The completion: what bash offers behind these words.
offered() { # WORD...
  bash -c '. "$1"; shift; COMP_WORDS=(gsmgate "$@"); COMP_CWORD=$#; compopt() { :; }; _gsmgate; printf "%s\n" "${COMPREPLY[@]}" | sort | tr "\n" " "' \
    - "$here/share/bash-completion/completions/gsmgate" "$@" 2>&1
}
offers() { # WANTED WORD...
  wanted=$1
  shift
  got=$(cd "$work/offers" && offered "$@")
  [ "$got" = "$wanted" ] || fail "behind '$*' bash offers '$got' in place of '$wanted'"
}
mkdir "$work/offers"
touch "$work/offers/call.player" "$work/offers/call.0"
offers "decode encode make render serve simulate verify " ""
offers "serve simulate " s
offers "--pcm --seed " simulate --
offers "--seed " simulate --pcm -
offers "--seed --sequence --speaker --ssrc --stamp " serve --s
offers "--journals --microphone --report --ring --ticks " serve --delay 3 --seed x --ssrc 1 --stamp 1 --sequence 1 --speaker x --reply x -
offers "call.0 call.player " verify order call
offers "call.player " serve --speaker call.p
offers " " serve --ticks ""
offers " " serve ""
offers " " make 7 ""
offers "call.0 call.player " make 7 1 1 ""
offers " " other ""
have=$(offered simulate --)$(offered render --)$(offered serve --)
for option in $(grep -o '^\.BI\? \\-\\-[a-z]*' "$top/dist/man/gsmgate.1" | sed 's/.*\\-\\-/--/'); do
  [[ " $have " == *" $option "* || "$have" == *"$option "* ]] || fail "the completion lacks $option"
done

# The unit: its command as the shell gets it, with a short call.
unit=$here/lib/systemd/system/gsmgate@.service
grep -q '^ExecStart=.*/opt/gate/bin/gsmgate serve' "$unit" || fail "the unit does not run the program of its prefix"
command=$(sed -e ':a' -e '/\\$/N; s/\\\n *//; ta' "$unit" | sed -n 's/^ExecStart=//p' |
  sed -e 's/\$\$/$/g; s/%%/%/g; s/%i/desk/g' -e "s#/opt/gate#$here#; s#/var/lib/gsmgate#$work/state#")
mkdir -p "$work/state/desk"
env $(sed -n 's/^Environment=//p' "$unit") TICKS=5 OPTIONS="--ring 4 --delay 2" LISTEN="127.0.0.1:28910 127.0.0.1:28911" REPLY=127.0.0.1:28912 \
  bash -c "$command" >"$work/notes" || fail "the unit's command ended with $?"
[ "$(grep -c '^link' "$work/notes")" = 2 ] && [ "$(ls "$work"/state/desk/call-2*T*.{player,0,1} | wc -l)" = 3 ] ||
  fail "the unit's command: $(cat "$work/notes")"

verify_unit() { # COMMAND-BEFORE...: systemd reads an instance of the unit
  said=$("$@" systemd-analyze verify "gsmgate@desk.service" 2>&1) && [ -z "$said" ] || fail "systemd-analyze: $said"
}
if has systemd-analyze; then
  mkdir "$work/units"
  sed "s#/opt/gate#$here#" "$unit" >"$work/units/gsmgate@.service"
  (cd "$work/units" && SYSTEMD_UNIT_PATH="$work/units:" systemd-analyze --man=no verify "$work/units/gsmgate@.service") >"$work/said" 2>&1 &&
    [ ! -s "$work/said" ] || fail "systemd-analyze: $(cat "$work/said")"
else
  echo "skipped: systemd-analyze is not there (Debian's systemd)"
fi

# The tools by their installed names.
tools=$(cd "$here/bin" && ls gsmgate-*)
[ "$(wc -w <<<"$tools")" = 5 ] || fail "the tools: $tools"
if has python3; then
  "$gate" make 7 20 1 "$work/made" >/dev/null
  "$here/bin/gsmgate-show-journal" "$work/made" | grep -q tick || fail "gsmgate-show-journal does not run where it is put"
fi

# A clean root.
root=
case ${1:-} in
"") echo "clean root: not tried (--clean)" ;;
--clean)
  if [ "$(id -u)" = 0 ] && has mmdebstrap; then
    mmdebstrap --quiet --variant=minbase --include=man-db,bash-completion,python3,systemd bookworm "$work/root" >"$work/said" 2>&1 &&
      root=$work/root || fail "mmdebstrap: $(tail -3 "$work/said")"
  else
    echo "skipped: a clean root wants root's rights and mmdebstrap (Debian's mmdebstrap)"
  fi
  ;;
*) root=$1 ;;
esac
if [ "$root" ]; then
  inside() { chroot "$root" /usr/bin/env -i PATH=/usr/local/bin:/usr/bin:/bin LC_ALL=C.UTF-8 MANPAGER=cat "$@"; }
  DESTDIR=$root "$top/scripts/install.sh" /usr/local "$program" >/dev/null || fail "install.sh into the root"
  inside gsmgate >"$work/said"
  [ $? = 2 ] && [ "$(cat "$work/said")" = usage ] || fail "the program in the root: $(cat "$work/said")"
  inside sh -c 'cd /tmp && gsmgate make 7 100 2 made && gsmgate simulate made played' >/dev/null || fail "the program in the root"
  # (minbase leaves out the pages of packages, not those of /usr/local)
  inside man gsmgate 2>/dev/null | grep -q 'EXIT STATUS' || fail "man gsmgate in the root"
  got=$(inside bash -c '. /usr/share/bash-completion/bash_completion; _completion_loader gsmgate; complete -p gsmgate')
  [ "$got" = "complete -F _gsmgate gsmgate" ] || fail "bash-completion in the root: $got"
  verify_unit inside
  for tool in gsmgate-show-journal gsmgate-watch-line gsmgate-mend-journal gsmgate-pcap-to-script gsmgate-plot-line; do
    inside "$tool" --help >"$work/said" 2>&1 || fail "$tool --help in the root: $(tail -1 "$work/said")"
  done
  echo "clean root: program, man page, completion, unit and tools tried"
fi
[ $failed = 0 ] && echo "installed as it should be"
exit $failed
