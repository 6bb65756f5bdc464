# For an older kit, which ran elsewhere too and had an emulator. Sourced by bench/run where the machine is no x86-64: Debian's rustc-web with its libraries of amd64, unpacked below target/cross (nothing is installed), and the kit's linker and
# emulator, so that the Rust and ours are code of the same processor and run under the same emulator.
# cross_rustc                     the folder whose `rustc` compiles for x86-64
# cross_run PROGRAM ARGUMENT..    runs what it compiled
. host/kit.sh
cross=$PWD/target/cross
cross_rustc=$cross/bin

# apt_for ARCHITECTURE COMMAND..: apt over package lists of its own, from the machine's own sources
apt_for() {
    lists=$cross/apt-$1
    mkdir -p "$lists/state/lists/partial" "$lists/cache/archives/partial"
    : >"$lists/status"
    arch=$1 command=$2
    shift 2
    "$command" -q -o "APT::Architecture=$arch" -o "APT::Architectures=$arch" -o "Dir::State=$lists/state" -o "Dir::State::status=$lists/status" \
        -o "Dir::Cache=$lists/cache" -o APT::Sandbox::User=root "$@"
}

# needs ARCHITECTURE PACKAGE PREFIX: the package that it depends on and whose name begins so
needs() {
    apt_for "$1" apt-cache depends "$2" | sed -n "s/.*Depends: \($3[0-9.]*\)\$/\1/p" | head -n 1
}

# unpack ARCHITECTURE FOLDER PACKAGE..
unpack() {
    arch=$1 into=$2
    shift 2
    room=$(mktemp -d)
    (cd "$room" && apt_for "$arch" apt-get download "$@" && for deb in *.deb; do dpkg -x "$deb" "$into"; done)
    rm -rf "$room"
}

fetch_rustc() {
    own=$(dpkg --print-architecture)
    apt_for "$own" apt-get update && apt_for amd64 apt-get update
    std=$(needs "$own" libstd-rust-web-dev libstd-rust-web-)
    unpack "$own" "$cross/rust" rustc-web libstd-rust-web-dev "$std" "$(needs "$own" "$std" libllvm)"
    unpack amd64 "$cross/rust" libstd-rust-web-dev
    unpack amd64 "$cross/system" libc6 libc6-dev libgcc-s1 libgcc-12-dev
    # the package's link is absolute: it has to lead into the folder
    ln -sf ../lib/x86_64-linux-gnu/ld-linux-x86-64.so.2 "$cross/system/lib64/ld-linux-x86-64.so.2"
}

if [ ! -x "$cross/bin/rustc" ]; then
    echo "bench: fetching a Rust compiler for x86-64 into target/cross" >&2
    mkdir -p "$cross/bin" "$cross/rust" "$cross/system"
    (set -e; fetch_rustc) >"$cross/said" 2>&1 || { cat "$cross/said" >&2; exit 1; }
    cat >"$cross/bin/clang-x86" <<END
#!/bin/sh
exec "$tools/bin/clang" --target=x86_64-linux-gnu --sysroot="$cross/system" -fuse-ld="$tools/bin/ld.lld" "\$@"
END
    cat >"$cross/bin/rustc" <<END
#!/bin/sh
LD_LIBRARY_PATH=$cross/rust/usr/lib/$(uname -m)-linux-gnu exec "$cross/rust/usr/bin/rustc" --sysroot "$cross/rust/usr" --target x86_64-unknown-linux-gnu \\
    -C linker="$cross/bin/clang-x86" -C linker-flavor=gcc "\$@"
END
    chmod +x "$cross/bin/clang-x86" "$cross/bin/rustc"
fi

cross_run() {
    "$tools/bin/qemu-x86_64" -L "$cross/system" "$@"
}
