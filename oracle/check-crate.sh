#!/bin/bash
# check-crate.sh: shows that the files of the crate that the oracle runs are those that this library was ported from: their sha256 sums, test modules at
# a file's end aside, are those of crate.sha256.
set -eu
cd "$(dirname "$0")"; L=$PWD/crate.sha256
cd vendor/root/usr/share/cargo/registry/protobuf-3.7.2/src
# a test module begins with a line `#[cfg(test)]` (or `#[cfg(all(test, ..`) and one `mod NAME {`, and is the rest of its file
without_tests() {
    awk '{ if (held != "") { if ($0 ~ /^mod [a-z_]* \{$/) exit; print held; held = "" } if ($0 ~ /^#\[cfg\((all\()?test[,)]/) held = $0; else print }' "$1"
}
bad=0
while read -r sum file; do
    [ "$(without_tests "$file" | sha256sum | cut -d ' ' -f 1)" = "$sum" ] || { echo "check-crate: $file differs" >&2; bad=1; }
done <"$L"
[ $bad = 0 ] && echo "check-crate: $(wc -l <"$L") files are as ported from"
