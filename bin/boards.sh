# For bin/targets, which sources it: how a program for each kind of processor is built here and run. $room is its folder.
# shellcheck shell=bash
# shellcheck disable=SC2154
declare -A kind=([x86_64]=x86 [aarch64]=linux [armv7]=linux [cortex-m0]=board [cortex-m3]=board [cortex-m4]=board)
[ "$(uname -m)" != aarch64 ] || kind[aarch64]=native
declare -A debian_name=([aarch64]=arm64 [armv7]=armhf) gnu_name=([aarch64]=aarch64-linux-gnu [armv7]=arm-linux-gnueabihf)
declare -A emulator_of=([aarch64]=aarch64 [armv7]=arm)
declare -A board=([cortex-m0]='microbit -global nrf51-soc.sram-size=4194304' # more RAM than the real one, for the tables
    [cortex-m3]=mps2-an385 [cortex-m4]=mps2-an386)
limit=300 # seconds for a run

# ready_KIND TARGET: whether such programs can be built and run here, after what is missing was fetched.
# build_KIND TARGET OUT WORDS..: OUT, of .c and .a files, with options.
# run_KIND TARGET NAME ARGS..: runs out/targets/TARGET/NAME.

ready_x86() { :; }
build_x86() { bin/x86cc -Werror -o "${@:2}"; }
run_x86() { timeout $limit bin/x86run "$room/$1/$2" "${@:3}"; }

ready_native() { :; }
build_native() { gcc -O2 -Wall -Wextra -Werror -o "${@:2}"; }
run_native() { timeout $limit "$room/$1/$2" "${@:3}"; }

# Debian's C library for it, and an emulator
ready_linux() {
    local arch=${debian_name[$1]} gcc
    if [ ! -e "$peers/$arch/complete" ]; then
        debian "$arch" apt-get update || : # a list that is out of step does not matter, if the packages can be had
        gcc=$(debian "$arch" apt-cache pkgnames libgcc- | sed -n 's/^libgcc-\([0-9]*\)-dev$/\1/p' | sort -n | tail -n 1)
        unpack "$arch" libc6-dev linux-libc-dev "libgcc-$gcc-dev" || return
        touch "$peers/$arch/complete"
    fi
    find_emulator "${emulator_of[$1]}"
}
build_linux() {
    local name=${gnu_name[$1]} processor=()
    [ "$1" != armv7 ] || processor=(-march=armv7-a)
    "$tools/clang" --target="$name" "${processor[@]}" --sysroot="$peers/root" --ld-path="$tools/ld.lld" -static -O2 \
        -isystem "$(echo "$usr/lib/gcc/$name"/*/include)" -Wall -Wextra -Werror -o "${@:2}"
}
run_linux() {
    find_emulator "${emulator_of[$1]}"
    timeout $limit "$emulator" "$room/$1/$2" "${@:3}"
}

ready_board() {
    command -v qemu-system-arm >/dev/null || { can_install && fetch qemu-system-arm; }
}
build_board() {
    local target=$1 out=$2 word words=() objects=() flash=4M options=(-DQUIET_MS=100)
    [ "$target" != cortex-m0 ] || { flash=256K && options+=(-DMICROBIT); }
    for word in tests/board/board.c tests/board/libc.c "${@:3}"; do
        case $word in
        *.c) words+=("$word") ;;
        *.a) objects+=("$word") ;;
        *) options+=("$word") ;;
        esac
    done
    for word in "${words[@]}"; do
        for_target "$target" -ffreestanding -fno-builtin -Wall -Wextra -nostdinc -isystem "$std" \
            -isystem tests/board/include -Itests/board "${options[@]}" -c "$word" -o "$out-$(basename "$word" .c).o" || return
        objects=("$out-$(basename "$word" .c).o" "${objects[@]}")
    done
    "$tools/ld.lld" --fatal-warnings --gc-sections --defsym=FLASH=$flash --defsym=RAM=4M -T tests/board/board.ld \
        -o "$out" "${objects[@]}"
}
# From the folder of the list, which the board reads through the emulator.
run_board() {
    # shellcheck disable=SC2086
    (cd "${folder:-crates/cases}" && timeout $limit qemu-system-arm -display none -monitor none -serial none -M ${board[$1]} \
        -semihosting-config enable=on,target=native "${@:3}" -kernel "$room/$1/$2")
}
run_station() {
    # shellcheck disable=SC2086
    timeout $limit /usr/bin/python3 tests/board/line.py crates/cases/stdin ${board[$1]%% *} "$room/$1/$2" \
        $(sed -n 's/^[^ ]* //p' <<<"${board[$1]}")
}
