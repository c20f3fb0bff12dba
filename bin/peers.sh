# For bin/measure, which sources it: the emulator that counts, and the peers built for x86-64. What is missing comes
# from Debian packages, unpacked into out/peers: nothing is installed and no architecture is added to the machine.
# shellcheck shell=bash
peers=$PWD/out/peers
usr=$peers/root/usr
here=$(dpkg --print-architecture 2>/dev/null || echo none) # on another system no package can be had

# debian ARCH PROGRAM WORDS..: apt-get or apt-cache for that architecture, with lists and packages kept in out/peers
debian() {
    local arch=$1 program=$2 room=$peers/$1
    shift 2
    mkdir -p "$room/lists/partial" "$room/cache/archives/partial"
    local options=(-q -o "Dir::State::Lists=$room/lists" -o "Dir::Cache=$room/cache" -o Debug::NoLocking=1
        -o Acquire::Languages=none -o "APT::Sandbox::User=$(id -un)")
    [ "$arch" = "$here" ] ||
        options+=(-o "APT::Architecture=$arch" -o "APT::Architectures=$arch" -o Dir::State::status=/dev/null)
    "$program" "${options[@]}" "$@"
}

# unpack_deb PACKAGE..: these files of packages; a link becomes what it leads to, since rt ci wants no link in the checkout
unpack_deb() {
    local file link at
    for file in "$@"; do dpkg-deb -x "$file" "$peers/root" || return; done
    find "$peers/root" -type l | while read -r link; do
        at=$(readlink "$link")
        case $at in /*) at=$peers/root$at ;; *) at=$(dirname "$link")/$at ;; esac
        at=$(realpath -q "$at") || :
        rm "$link"
        [ ! -e "$at" ] || cp -RL "$at" "$link" || :
    done
    find "$peers/root" -type l -delete
}

# unpack ARCH PACKAGE..: these packages and none that they need
unpack() {
    local arch=$1 packages=$peers/$1/packages
    shift
    mkdir -p "$packages" && (cd "$packages" && debian "$arch" apt-get download "$@") || return
    unpack_deb "$packages"/*.deb
}

# A rustc for this machine with the standard library for x86-64, and libmodbus for x86-64; their versions.
unpack_peers() {
    local rust=rust-web version file
    [ -e "$peers/versions" ] && return
    debian "$here" apt-get update && debian amd64 apt-get update || return
    # in Debian 12 only the packages -web are new enough for the crate
    debian "$here" apt-cache show rustc-web >/dev/null 2>&1 || rust=rust
    version=$(debian "$here" apt-cache depends "libstd-$rust-dev" | sed -n 's/.*Depends: \(libstd-rust.*\)/\1/p')
    # the shared libraries that this rustc needs and the machine has not
    debian "$here" apt-get -y --no-install-recommends --download-only install "$version" || return
    if compgen -G "$peers/$here/cache/archives/*.deb" >/dev/null; then
        unpack_deb "$peers/$here"/cache/archives/*.deb || return
    fi
    unpack "$here" "${rust/rust/rustc}" "$version" &&
        unpack amd64 "libstd-$rust-dev" libmodbus5 libmodbus-dev &&
        x86rustc --version | cut -d' ' -f2 >"$peers/new" &&
        dpkg-deb -f "$peers"/amd64/packages/libmodbus5_*.deb Version >>"$peers/new" &&
        mv "$peers/new" "$peers/versions"
}

x86rustc() {
    LD_LIBRARY_PATH=$usr/lib/$(uname -m)-linux-gnu "$usr/bin/rustc" --edition 2021 \
        --target x86_64-unknown-linux-gnu "$@"
}

# build_crate NAME OPTION..: out/bench/NAME, the crate optimized as cargo's release profile does, with these options
build_crate() {
    local name=$1 room=out/bench/$1.crate crate=out/oracle/rmodbus each
    shift
    local build=(x86rustc -C opt-level=3 "$@" --out-dir "$room" -L "$room")
    for each in ieee754 fixedvec; do
        "${build[@]}" --crate-type rlib --crate-name $each oracle/$each/src/lib.rs || return
    done
    CARGO_MANIFEST_DIR=$PWD/$crate "${build[@]}" --crate-type rlib --crate-name rmodbus $crate/src/lib.rs \
        --extern ieee754 --extern fixedvec --cfg test --cfg 'feature="std"' \
        -A explicit_builtin_cfgs_in_flags -A unused_imports &&
        "${build[@]}" --crate-type staticlib --crate-name served bench/rmodbus.rs --extern rmodbus &&
        bin/x86cc -Werror -o "out/bench/$name" bench/rmodbus.c bench/rows.c "$room/libserved.a"
}

# build_libmodbus NAME OPTION..: out/bench/NAME, libmodbus as Debian builds it
build_libmodbus() {
    bin/x86cc -Werror -I"$usr/include/modbus" "${@:2}" -o "out/bench/$1" bench/libmodbus.c bench/rows.c \
        "$usr/lib/x86_64-linux-gnu/libmodbus.so"
}

# The programs rmodbus, rmodbus-one-unit, libmodbus and libmodbus-reply in out/bench.
build_peers() {
    gather_crate && unpack_peers && build_crate rmodbus && build_crate rmodbus-one-unit -C codegen-units=1 &&
        build_libmodbus libmodbus && build_libmodbus libmodbus-reply -DREPLY_ALONE=1
}

# find_emulator [PROCESSOR]: $emulator for it, or for x86_64: this machine's, else Debian's unpacked
find_emulator() {
    local package name=qemu-${1:-x86_64}
    for package in '' qemu-user-static qemu-user; do # the second has it in Debian 12, the third from 13 on
        [ -z "$package" ] || { debian "$here" apt-get update && unpack "$here" $package; } || return
        for emulator in "$(command -v "$name")" "$(command -v "$name-static")" "$usr/bin/$name"{-static,}; do
            [ ! -x "$emulator" ] || return 0
        done
    done
    return 1
}
