#!/bin/bash
# setup.sh: fetches the source of the Rust crate protobuf 3.7.2, and of the crates it uses, as Debian packages, and unpacks them below vendor/.
# It installs nothing and changes nothing outside this folder; run again, it does what is missing. Of the machine it needs Debian's apt and cargo.
#   vendor/apt    a private state of apt, with the machine's own source of Debian packages
#   vendor/debs   the packages
#   vendor/root   the packages unpacked; .cargo/config.toml, written here too, has cargo take crates from there alone
set -eu
P=$(cd "$(dirname "$0")" && pwd); V=$P/vendor; A=$V/apt
if [ ! -f "$V/debs/.done" ]; then
    mkdir -p "$A/state/lists/partial" "$A/cache/archives/partial" "$A/etc/preferences.d" "$A/etc/apt.conf.d" "$V/debs"
    : >"$A/status"
    D=$(apt-get indextargets --format '$(REPO_URI)' | grep -v security | head -n 1)
    K='signed-by=/usr/share/keyrings/debian-archive-keyring.gpg'
    echo "deb [$K] $D sid main" >"$A/etc/sources.list"
    # signatures are checked; an index of sid that is older than it says is taken, as crate.sha256 fixes the version anyway
    cat >"$A/apt.conf" <<END
Dir::State "$A/state";
Dir::State::status "$A/status";
Dir::Cache "$A/cache";
Dir::Etc "$A/etc";
APT::Sandbox::User "root";
Acquire::Languages "none";
Acquire::Check-Valid-Until "false";
END
    export APT_CONFIG=$A/apt.conf
    apt-get -q update
    cd "$V/debs"
    for n in protobuf protobuf-support once-cell thiserror-1 thiserror-impl-1 proc-macro2 quote syn-2 unicode-ident; do echo librust-$n-dev/sid; done |
        xargs apt-get -q download
    touch .done
fi
if [ ! -f "$V/root/.done" ]; then
    for d in "$V"/debs/*.deb; do dpkg -x "$d" "$V/root"; done
    touch "$V/root/.done"
fi
mkdir -p "$P/.cargo"
printf '%s\n' '[source.crates-io]' 'replace-with = "vendor"' '[source.vendor]' 'directory = "vendor/root/usr/share/cargo/registry"' '[net]' 'offline = true' >"$P/.cargo/config.toml"
"$P/check-crate.sh"
echo "setup: done; now cargo build --release"
