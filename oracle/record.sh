#!/bin/bash
# record.sh: writes ../crates/replay/stdin and stdout: lines that cover every verb, kind and refusal, and their answers by the crate, or by the model where the
# crate has none. The program `replay` is run over them by the gate, with no Rust at hand. The lines are own/lines.txt, and some of gen.py's; then those of segment
# files: own/segments.txt, every cut of three segments, and some of gen.py's; then own/sizes.txt; then those of documents: own/documents.txt, and some of gen.py's;
# then those of letters: own/letters.txt, own/broken.txt, and some of gen.py's; then those of dropped spans: own/spans.txt, and some of gen.py's.
# After setup.sh. Nothing of ours takes part: the answers are the crate's and the model's, which must agree wherever both answer.
set -eu
cd "$(dirname "$0")"
W=work/record; to=../crates/replay
mkdir -p $W "$to"
cargo build -q --release
answer() { # lines in $1: answered by both sides, which must agree
    target/release/oracle <"$1" >"$1.oracle"
    python3 model.py <"$1" >"$1.model"
    python3 compare.py "$1" "$1.oracle" "$1.model" "$1.model" >"$1.table" || { cat "$1.table"; exit 1; }
}
grep -v '^#' own/lines.txt >$W/own
python3 gen.py 60000 7 messages | awk 'length($0) < 2500' | grep -v '^lookup' >$W/some
python3 gen.py 20000 8 messages | grep '^lookup' | head -n 200 >>$W/some
{ grep -v '^#' own/segments.txt; python3 cuts.py; } >$W/segments
python3 gen.py 20000 7 segments | awk 'length($0) < 1000' >$W/mixed
grep -v '^#' own/sizes.txt >$W/sizes
grep -v '^#' own/documents.txt >$W/documents
python3 gen.py 20000 7 documents | awk 'length($0) < 1000' >$W/groups
grep -hv '^#' own/letters.txt own/broken.txt >$W/letters
python3 gen.py 20000 7 letters | awk 'length($0) < 300' >$W/texts
grep -v '^#' own/spans.txt >$W/spans
python3 gen.py 20000 7 spans | awk 'length($0) < 600' >$W/dropped
answer $W/own
answer $W/some
answer $W/segments
answer $W/mixed
answer $W/sizes
answer $W/documents
answer $W/groups
answer $W/letters
answer $W/texts
answer $W/spans
answer $W/dropped
cp $W/own $W/stdin; cp $W/own.model $W/stdout
python3 pick.py $W/some $W/some.oracle $W/some.model $((5000 - $(wc -l <$W/own))) $W/stdin $W/stdout
cat $W/segments >>$W/stdin; cat $W/segments.model >>$W/stdout
python3 pick.py $W/mixed $W/mixed.oracle $W/mixed.model 200 $W/stdin $W/stdout
cat $W/sizes >>$W/stdin; cat $W/sizes.model >>$W/stdout
cat $W/documents >>$W/stdin; cat $W/documents.model >>$W/stdout
python3 pick.py $W/groups $W/groups.oracle $W/groups.model 200 $W/stdin $W/stdout
cat $W/letters >>$W/stdin; cat $W/letters.model >>$W/stdout
python3 pick.py $W/texts $W/texts.oracle $W/texts.model 200 $W/stdin $W/stdout
cat $W/spans >>$W/stdin; cat $W/spans.model >>$W/stdout
python3 pick.py $W/dropped $W/dropped.oracle $W/dropped.model 200 $W/stdin $W/stdout
answer $W/stdin
cmp $W/stdin.model $W/stdout
cat $W/stdin.table
cp $W/stdin $W/stdout "$to/"
echo "recorded: $(wc -l <"$to/stdin") lines, $(wc -c <"$to/stdin") and $(wc -c <"$to/stdout") bytes"
