#!/bin/sh
# One transaction over two forwarding elements: `forces control` gives a port of each another speed, at both or at neither.
#
# Use: examples/transaction.sh        (what it prints stands in examples/transaction.out)
#
# It takes some four seconds, of which a control element waits two for more words of its elements before it ends. It needs python3, and `rt`
# where the program is not built yet.
set -eu
cd "$(dirname "$0")/.."
. examples/network

begin_elements 2 2

echo 'the control element 40000001 changes both:'
plan >"$scratch/plan"
"$program" control 40000001 "$scratch/rounds" 2 4000 "127.0.0.1:$first" "127.0.0.1:$second" <"$scratch/plan"

echo 'element 1 is asked for its speed:'
speed_of "$first" 00000001
echo 'element 2 is asked for its speed:'
speed_of "$second" 00000002

echo 'the reports of both:'
end_elements
