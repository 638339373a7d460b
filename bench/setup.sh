#!/bin/bash
# setup.sh: fetches what the bench needs and unpacks it below this folder (260 MB to fetch, 1.5 GB on disk). It installs nothing and changes nothing outside
# this folder; run again, it does what is missing. Of the machine it needs Debian 12 on aarch64 or x86-64 with gcc, g++, cargo and python3.
#   apt/       a private state of apt, with the machine's own source of Debian packages
#   debs/      the packages: rustc 1.85, qemu-user 7.2 (its emulator takes plugins), C++ protobuf and protobuf-c with their compilers, the sources of the
#              Rust crates protobuf 3.7.2 and prost 0.14 and of the crates they use; on aarch64 also C and C++ compilers for x86-64
#   root/      the packages unpacked
set -eu
P=$(cd "$(dirname "$0")" && pwd); R=$P/root; A=$P/apt
case $(uname -m) in aarch64) H=arm64 ;; x86_64) H=amd64 ;; *) echo "setup: only aarch64 and x86-64 are supported"; exit 2 ;; esac
if [ ! -f "$P/debs/.done" ]; then
    mkdir -p "$A/state/lists/partial" "$A/cache/archives/partial" "$A/etc/preferences.d" "$A/etc/apt.conf.d" "$P/debs"
    : >"$A/status"
    D=$(apt-get indextargets --format '$(REPO_URI)' | grep -v security | head -n 1)
    K='signed-by=/usr/share/keyrings/debian-archive-keyring.gpg'
    printf '%s\n' "deb [arch=arm64,amd64,all $K] $D bookworm main" "deb [arch=$H $K] $D sid main" >"$A/etc/sources.list"
    # signatures are checked; an index of sid that is older than it says is taken, as the peer's version is fixed anyway
    cat >"$A/apt.conf" <<EOC
Dir::State "$A/state";
Dir::State::status "$A/status";
Dir::Cache "$A/cache";
Dir::Etc "$A/etc";
APT::Architecture "$H";
APT::Architectures { "arm64"; "amd64"; };
APT::Sandbox::User "root";
Acquire::Languages "none";
Acquire::Check-Valid-Until "false";
EOC
    export APT_CONFIG=$A/apt.conf
    apt-get -q update
    cd "$P/debs"
    names="qemu-user libcapstone4 libnuma1 liburing2 rustc-web libllvm19 libstd-rust-web-1.85 libstd-rust-web-dev libprotobuf-dev libprotobuf-c-dev
        protobuf-compiler libprotoc32 libprotobuf32 protobuf-c-compiler"
    [ $H = amd64 ] || names="$names binutils-x86-64-linux-gnu gcc-12-x86-64-linux-gnu cpp-12-x86-64-linux-gnu g++-12-x86-64-linux-gnu
        libc6-amd64-cross libc6-dev-amd64-cross linux-libc-dev-amd64-cross libgcc-12-dev-amd64-cross libgcc-s1-amd64-cross
        libstdc++-12-dev-amd64-cross libstdc++6-amd64-cross libstd-rust-web-1.85:amd64 libstd-rust-web-dev:amd64 libprotobuf-dev:amd64 libprotobuf-c-dev:amd64"
    for n in $names; do echo $n/bookworm; done | xargs apt-get -q download
    # the crates of Rust, and those that they use, as apt would choose them
    apt-get install -y --no-install-recommends --print-uris librust-protobuf-dev/sid librust-prost-dev/sid |
        grep -oE "librust-[^_]*_" | tr -d _ | sort -u | sed 's,$,/sid,' | xargs apt-get -q download
    touch .done
fi
if [ ! -f "$R/.done" ]; then
    for d in "$P"/debs/*.deb; do dpkg -x "$d" "$R"; done
    # glibc's linker scripts name absolute paths: lead them into root/
    L=$R/usr/x86_64-linux-gnu/lib
    [ $H = amd64 ] || sed -i "s, /usr/lib/x86_64-linux-gnu/, $L/,g; s, /usr/x86_64-linux-gnu/lib, $L,g" "$L/libm.a" "$L/libc.so" "$L/libm.so"
    touch "$R/.done"
fi
echo "setup: done; now ./build.sh and ./run.sh"
