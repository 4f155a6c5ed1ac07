# Sourced by the scripts that compile and run programs with the static library. That library holds
# x86-64 Linux code on every machine, so elsewhere its callers are cross-compiled and emulated.
#
# Sets    native    yes on x86-64, otherwise no
#         cc        the C compiler for x86-64
#         runner    the words to put before an x86-64 program
#         archive   the static library, in the directory that MESKELOW_LIB_DIR names if it is set
#         rust      where Debian's rustc is unpacked, elsewhere than on x86-64
# shellcheck shell=bash disable=SC2034

if [ "$(uname -m)" = x86_64 ]; then
    native=yes
    cc=gcc
    runner=()
else
    native=no
    cc=x86_64-linux-gnu-gcc
    # There Debian keeps the C library for x86-64, its loader and what else gcc links.
    runner=(qemu-x86_64 -L /usr/x86_64-linux-gnu)
fi

# A relative name starts in the directory of this file, as it does for cargo.
archive="$(cd "$(dirname "${BASH_SOURCE[0]}")" && realpath -m "${MESKELOW_LIB_DIR:-../target/staticlib}")/libmeskelow.a"
rust="$(realpath -m "$(dirname "${BASH_SOURCE[0]}")/../target/second-cross")"

fail() { # message
    echo "$0: $1" >&2
    exit 1
}

need_archive() {
    [ -f "$archive" ] || fail "there is no $archive; 'bin/make meskelow' makes it"
}

# On standard error, because standard output is for the answers of programs.
apt_get() { # words for apt-get
    apt-get -qq -o Acquire::Retries=3 -o Dpkg::Use-Pty=0 "$@" >&2
}

# A mirror that is just being refreshed lacks some index or other. Whether that matters is seen when
# packages are asked for, so it stops nothing here.
indexes_failed() {
    echo "$0: not every package index could be read" >&2
}

# Nothing on x86-64, where the machine's own compiler serves.
need_packages() { # Debian packages
    local package missing=()
    [ "$native" = no ] || return 0
    for package; do
        dpkg-query -W -f='${db:Status-Status}\n' "$package" 2>/dev/null | grep -x installed >/dev/null ||
            missing+=("$package")
    done
    [ ${#missing[@]} -gt 0 ] || return 0
    [ "$(id -u)" = 0 ] || fail "missing here: apt-get install --no-install-recommends ${missing[*]}"
    echo "$0: installing ${missing[*]}" >&2
    apt_get update || indexes_failed
    DEBIAN_FRONTEND=noninteractive apt_get -y --no-install-recommends -o DPkg::Lock::Timeout=300 \
        install "${missing[@]}" || fail "cannot install ${missing[*]}"
}

need_compiler() {
    need_packages gcc-x86-64-linux-gnu libc6-dev-amd64-cross
}

need_runner() {
    need_packages qemu-user libc6-amd64-cross libgcc-s1-amd64-cross
}

# Debian's packages, those for x86-64 with :amd64, below a directory of their own, once. They are not
# installed: no program of the machine is hidden, and apt keeps its own lists and architectures.
unpack() { # directory, Debian packages
    local directory="$1" deb apart
    shift
    [ ! -e "$directory/complete" ] || return 0
    rm -rf "$directory"
    mkdir -p "$directory"/apt/{lists,cache/archives}/partial
    apart=(-o "Dir::State::lists=$directory/apt/lists" -o "Dir::Cache=$directory/apt/cache"
        -o "APT::Architectures::=$(dpkg --print-architecture)" -o APT::Architectures::=amd64
        -o APT::Sandbox::User=root)
    apt_get "${apart[@]}" update || indexes_failed
    (cd "$directory/apt" && apt_get "${apart[@]}" download "$@") || fail "cannot download Debian's $1"
    for deb in "$directory"/apt/*.deb; do
        dpkg -x "$deb" "$directory"
    done
    rm -rf "$directory/apt"
    touch "$directory/complete"
}

# rustc for x86-64. The machine's own has the standard library for its own kind only, so elsewhere it
# is Debian's, with Debian's x86-64 standard library. Only LLVM is installed, for the sake of all that
# it depends on.
need_rustc() {
    [ "$native" = no ] || return 0
    need_compiler
    need_packages libllvm14
    unpack "$rust" rustc libstd-rust-1.63 libstd-rust-dev:amd64
}

compile() { # options of rustc
    local options=(--edition 2021 -C opt-level=3)
    if [ "$native" = yes ]; then
        rustc "${options[@]}" "$@"
    else
        local driver=("$rust"/usr/lib/*/librustc_driver-*.so)
        LD_LIBRARY_PATH="${driver[0]%/*}" "$rust/usr/bin/rustc" --sysroot "$rust/usr" \
            --target x86_64-unknown-linux-gnu -C linker="$cc" "${options[@]}" "$@"
    fi
}
