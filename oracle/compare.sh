#!/bin/bash
# compare.sh [LINES] [SEED] [GROUP]: makes LINES case lines (1,000,000) by SEED (1), puts them through the crate, the model and our program `replay`, and compares.
# GROUP is a group of gen.py's lines: `messages`, `segments`, `documents`, `letters`, `spans`, or all.
# After setup.sh. tools/run.sh proves and builds `replay` where it has changed (or REPLAY names another program). All it writes is below work/.
set -eu
cd "$(dirname "$0")"
lines=${1:-1000000} seed=${2:-1} group=${3:-}
begin=$SECONDS
./check-crate.sh
cargo build -q --release
mkdir -p work
python3 gen.py "$lines" "$seed" ${group:+"$group"} >work/lines
# the model is the slowest: it takes the lines in two parts
half=$(((lines + 1) / 2))
head -n "$half" work/lines | python3 model.py >work/model.1 & a=$!
tail -n +$((half + 1)) work/lines | python3 model.py >work/model.2 & b=$!
target/release/oracle <work/lines >work/oracle
${REPLAY:-../tools/run.sh replay} <work/lines >work/ours
wait $a; wait $b
cat work/model.1 work/model.2 >work/model
rm work/model.1 work/model.2
status=0
python3 compare.py work/lines work/oracle work/model work/ours || status=$?
echo "seed $seed, $((SECONDS - begin)) s; sha256 of the lines $(sha256sum <work/lines | cut -c 1-16)"
exit $status
