#!/usr/bin/env bash
# Asks tshark whether the receiver report that the tests of rtcp_stats expect, 52 octets, is a valid RTCP compound.
# It wants Debian's tshark, which has text2pcap too. What is missing is skipped, with a line that says so.
set -u
top=$(cd "$(dirname "$0")/.." && pwd)
tests=$top/crates/rtcp_stats/src/tests.rt
work=$(mktemp -d)
trap 'rm -rf "$work"' EXIT

for tool in tshark text2pcap; do
  command -v $tool >/dev/null || { echo "skipped: $tool is not there (Debian's tshark)"; exit 0; }
done

# The octets of the constant REPORT, as a dump that text2pcap reads.
octets=$(sed -n '/^const REPORT/,/^];/p' "$tests" | grep -o '0x[0-9A-F]\{2\}' | cut -c3- | tr '\n' ' ')
[ "$(echo $octets | wc -w)" -eq 52 ] || { echo "failed: the report in $tests has not 52 octets"; exit 1; }
echo "000000 $octets" >"$work/report.txt"
text2pcap -q -u 9001,9001 "$work/report.txt" "$work/report.pcap" 2>"$work/notes" || { cat "$work/notes"; exit 1; }

# Types, the check of the lengths, cycles and highest sequence number, jitter, canonical name, and what is malformed.
row=$(tshark -r "$work/report.pcap" -d udp.port==9001,rtcp -T fields -E separator='|' -e rtcp.pt -e rtcp.length_check \
  -e rtcp.ssrc.high_cycles -e rtcp.ssrc.high_seq -e rtcp.ssrc.jitter -e rtcp.sdes.text -e _ws.malformed 2>/dev/null)
echo "tshark: $row"
case "$row" in
  '201,202|1|1|2|11|gsmgate|' | '201,202|True|1|2|11|gsmgate|') echo "a valid compound: a receiver report and a source description" ;;
  *) echo "failed: tshark does not read the octets as one valid compound"; exit 1 ;;
esac
