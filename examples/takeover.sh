#!/bin/sh
# A control element is killed when both elements have prepared its transaction, and before it completes it at either. Another one, with a
# plan that has no transaction, takes over, finds the transaction at the elements, and brings it to one end at both.
#
# Use: examples/takeover.sh        (what it prints stands in examples/takeover.out)
#
# It takes some four seconds. It needs python3, and `rt` where the program is not built yet.
set -eu
cd "$(dirname "$0")/.."
. examples/network

begin_elements 2 2

echo 'the control element 40000001 is killed:'
plan >"$scratch/plan"
python3 examples/stopper.py "$first,$second" "$program" control 40000001 "$scratch/rounds" 2 4000 STOPPER STOPPER <"$scratch/plan"

echo 'the control element 40000002 takes over:'
elements >"$scratch/plan"
"$program" control 40000002 "$scratch/other-rounds" 2 4000 "127.0.0.1:$first" "127.0.0.1:$second" <"$scratch/plan"

echo 'the reports of both elements:'
end_elements
