#!/bin/bash
# build.sh: proves the libraries `calf`, `bench_leaves`, `bench_pull` and `bench_entries`, makes their archives (tools/archive.sh), and of these work/bench, one static x86-64 program of them, their peers and the driver bench.c; the inputs, in
# work/data; and the counter, work/icount.so. Also work/native/bench, for times: the same for this processor, with the proved libraries' own LLVM modules, as the
# prover handed them to its compiler, compiled for it. On x86-64 that means that the branches of the modules and of the peers are kept within blocks of 32 bytes: some
# processors take longer over others, and where a branch falls else depends on what is linked before it. After setup.sh.
set -eu
cd "$(dirname "$0")"; P=$PWD; R=$P/root; W=$P/work; N=$W/native; M=$(uname -m)
K=$(dirname "$(dirname "$(readlink -f "$(command -v rt)")")"); T=$K/toolchain
mkdir -p "$W/data" "$W/gen" "$N"
python3 gen.py "$W/data"
gcc -O2 -shared -fPIC -o "$W/icount.so" icount.c
for c in calf bench_leaves bench_pull bench_entries; do ../tools/archive.sh $c; done
# the tools of root/ find their own libraries there
own() { LD_LIBRARY_PATH=$R/usr/lib/$M-linux-gnu "$@"; }
own "$R/usr/bin/protoc" --cpp_out="$W/gen" bench.proto
own "$R/usr/bin/protoc" --plugin=protoc-gen-c="$R/usr/bin/protoc-gen-c" --c_out="$W/gen" bench.proto

# FOLDER MACHINE GCC GXX LINK LIBRARIES..: the program in FOLDER; its peers are for that machine, with the flags AS for gcc and RUST for rustc
AS=; RUST=
program() {
    local folder=$1 machine=$2 gcc=$3 gxx=$4 link=$5; shift 5
    for f in leaves pulls fields records dropped segments objects; do
        (cd peers && RUSTC=$R/usr/bin/rustc RUSTFLAGS=$RUST CARGO_TARGET_DIR=$folder/peers own cargo build -q --release --offline --target "$machine-unknown-linux-gnu" --features $f \
            --config 'source.crates-io.replace-with="debian"' --config "source.debian.directory=\"$R/usr/share/cargo/registry\"")
        cp "$folder/peers/$machine-unknown-linux-gnu/release/libpeers.a" "$folder/lib$f.a"
    done
    own "$gcc" -O2 $AS -c -I"$W/gen" -I"$R/usr/include" peers/pbc.c -o "$folder/pbc.o"
    own "$gcc" -O2 $AS -c -I"$W/gen" -I"$R/usr/include" "$W/gen/bench.pb-c.c" -o "$folder/pbc_gen.o"
    own "$gxx" -O2 $AS -c -I"$W/gen" -I"$R/usr/include" peers/cpp.cc -o "$folder/cpp.o"
    own "$gxx" -O2 $AS -c -I"$W/gen" -I"$R/usr/include" "$W/gen/bench.pb.cc" -o "$folder/cpp_gen.o"
    own "$gcc" -O2 -c bench.c -o "$folder/bench.o"
    own "$gxx" $link -Wl,-z,muldefs -o "$folder/bench" "$folder"/{bench,pbc,pbc_gen,cpp,cpp_gen}.o "$@" "$folder"/lib{leaves,pulls,fields,records,dropped,segments,objects}.a \
        "$R/usr/lib/$machine-linux-gnu/libprotobuf.a" "$R/usr/lib/$machine-linux-gnu/libprotobuf-c.a" -lpthread -ldl -lm
}

X=; [ "$M" = x86_64 ] || X=$R/usr/bin/x86_64-linux-gnu-
program "$W" x86_64 "${X}gcc${X:+-12}" "${X}g++${X:+-12}" "-static -no-pie" ../target/staticlib/lib{calf,bench_leaves,bench_pull,bench_entries}.a

# a toolchain folder whose clang keeps the module that it is handed
mkdir -p "$W/tc/bin" "$W/tc/kept"
ln -sfn "$T/lib" "$W/tc/lib"
for t in "$T"/bin/*; do ln -sf "$t" "$W/tc/bin/"; done
rm "$W/tc/bin/clang"
printf '%s\n' '#!/bin/bash' "for a in \"\$@\"; do case \$a in *.bc | *.ll) cp \"\$a\" '$W/tc/kept/module' ;; esac; done" "exec -a clang '$T/bin/clang' \"\$@\"" >"$W/tc/bin/clang"
chmod +x "$W/tc/bin/clang"
for c in calf bench_leaves bench_pull bench_entries; do
    deps=$(sed -n "s/^${c}_c staticlib: *//p" ../crates.txt); set --
    for d in $deps; do set -- "$@" --extern "$d=../crates/$d/out/rlib/$d.rlib"; done
    for d in ../crates/*/out/rlib; do set -- "$@" -L "dependency=$d"; done
    "$K/bin/rattle" build --crate-name ${c}_c ../crates/${c}_c/src/lib.rt --extern "std=$K/rlibs/std.rlib" "$@" -L "dependency=$K/rlibs" \
        --antt-project "$K/rattle/logic/antt-project.json" --logic-built "$K/logic_built" --toolchain "$W/tc" --crate-type staticlib -o "$W/tc/lib$c.a" >/dev/null
    cmp "$W/tc/lib$c.a" ../target/staticlib/lib$c.a
    "$T/bin/clang" --target=x86_64-unknown-linux-gnu -S -emit-llvm -Xclang -disable-llvm-passes -x ir "$W/tc/kept/module" -o "$W/tc/$c.ll"
    flags=-mbranches-within-32B-boundaries
    if [ "$M" = aarch64 ]; then
        # the module is for x86-64: its lines that say so are replaced
        sed -i -e 's/^target datalayout = .*/target datalayout = "e-m:e-p270:32:32-p271:32:32-p272:64:64-i8:8:32-i16:16:32-i64:64-i128:128-n32:64-S128-Fn32"/' \
            -e 's/^target triple = .*/target triple = "aarch64-unknown-linux-gnu"/' -e 's/ "target-cpu"="x86-64[^"]*"//; s/ "probe-stack"="inline-asm"//; s/ "stack-probe-size"="[0-9]*"//' "$W/tc/$c.ll"
        flags=
    fi
    "$T/bin/clang" --target=$M-unknown-linux-gnu -ffunction-sections -fdata-sections -fPIC -O3 $flags -c -x ir "$W/tc/$c.ll" -o "$N/$c.o"
done
L=
[ "$M" = aarch64 ] || { L="-static -no-pie"; AS=-Wa,-mbranches-within-32B-boundaries; RUST='-C llvm-args=-x86-branches-within-32B-boundaries'; }
program "$N" $M gcc g++ "$L" "$N"/{calf,bench_leaves,bench_pull,bench_entries}.o
echo "build: done; now ./run.sh"
