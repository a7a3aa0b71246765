#!/bin/sh
# Heartbeats between one control element and two forwarding elements, as bytes on the wire and as `forces show` tells them.
#
# Use: examples/heartbeats.sh        (what it prints stands in examples/heartbeats.out)
#
# It needs xxd, and `rt` where the program is not built yet.
set -eu
cd "$(dirname "$0")/.."
# The program of the sources, which is built where it is not there yet; without them, as in the package, the one that is installed.
program=crates/forces/out/forces
if [ ! -d crates ]; then
  program=forces
elif [ ! -x "$program" ]; then
  (cd crates/forces && rt run -- show </dev/null)
fi

# A heartbeat: version 1, type 0F, 6 words, then the sender, the addressee, the correlator and the flags.
heartbeat() {
  printf '100F0006 %s %s %s %s' "$1" "$2" "$3" "$4" | xxd -r -p
}

control=40000001
first=00000001
second=00000002

echo 'the control element asks both elements for an answer, and they answer:'
{
  heartbeat $control $first 0000000000000007 C0000000
  heartbeat $first $control 0000000000000007 00000000
  heartbeat $control $second 0000000000000008 C0000000
  heartbeat $second $control 0000000000000008 00000000
} | "$program" show

echo 'the stream breaks off within a heartbeat:'
{
  heartbeat $control $first 0000000000000009 C0000000
  heartbeat $control $second 000000000000000A C0000000 | head -c 20
} | "$program" show || echo "status $?"
