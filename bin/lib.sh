# For bin/lib and bin/targets, which source it: the proved module that the kit compiles, and a library of it for each
# kind of processor.
# shellcheck shell=bash
root=$PWD
targets='x86_64 aarch64 armv7 cortex-m0 cortex-m3 cortex-m4'
kit=$(kit_folder)
tools=$kit/toolchain/bin
std=$root/target/lib/std # the few headers that firmware has for sure; the kit's clang has none of its own

# The options with which the kit compiles, but for the processor, the level and -fPIC.
kit_options=(-mllvm -no-trap-after-noreturn -ffunction-sections -fdata-sections -mllvm -trap-unreachable
    -mllvm -no-x86-call-frame-opt -mllvm -disable-machine-licm -mllvm -disable-postra-machine-licm
    -mllvm -sink-common-insts=false --no-default-config -no-canonical-prefixes -fintegrated-cc1 -fno-crash-diagnostics -Werror)

# processor TARGET: what clang has to know of it. A gauge's processor gets the smaller code.
processor() {
    case $1 in
    x86_64) echo '--target=x86_64-unknown-linux-gnu -march=x86-64 -fPIC -O3' ;;
    aarch64) echo '--target=aarch64-unknown-linux-gnu -fPIC -O3' ;;
    armv7) echo '--target=armv7-unknown-linux-gnueabihf -fPIC -O3' ;;
    cortex-m0) echo '--target=thumbv6m-unknown-none-eabi -mcpu=cortex-m0 -mfloat-abi=soft -Os' ;;
    cortex-m3) echo '--target=thumbv7m-unknown-none-eabi -mcpu=cortex-m3 -mfloat-abi=soft -Os' ;;
    cortex-m4) echo '--target=thumbv7em-unknown-none-eabi -mcpu=cortex-m4 -mfloat-abi=soft -Os' ;;
    esac
}

# for_target TARGET WORDS..: the kit's clang for it, as the kit calls it
for_target() {
    local words
    read -ra words <<<"$(processor "$1")"
    "$tools/clang" "${words[@]}" "${kit_options[@]}" "${@:2}"
}

write_std() {
    mkdir -p "$std"
    printf '%s\n' '#pragma once' 'typedef __SIZE_TYPE__ size_t;' '#define NULL ((void *)0)' >"$std/stddef.h"
    {
        echo '#pragma once'
        for n in 8 16 32 64; do echo "typedef __UINT${n}_TYPE__ uint${n}_t; typedef __INT${n}_TYPE__ int${n}_t;"; done
        echo 'typedef __UINTPTR_TYPE__ uintptr_t;'
        echo '#define SIZE_MAX __SIZE_MAX__'
    } >"$std/stdint.h"
}

# keeping_toolchain FILE: a folder of the kit's tools, in which clang keeps what it is given to compile as FILE, and goes on as
# the kit's. So the check, its verdict and the library are the kit's own.
keeping_toolchain() {
    local see=$root/target/lib/toolchain tool
    mkdir -p "$see/bin"
    for tool in $(cd "$tools" && echo *); do
        {
            printf '#!/bin/bash\n'
            [ $tool != clang ] || printf 'for word; do case $word in *.bc) cp "$word" "%s" ;; esac; done\n' "$1"
            printf 'exec "%s" "$@"\n' "$tools/$tool"
        } >"$see/bin/$tool"
        chmod +x "$see/bin/$tool"
    done
    echo "$see"
}

# proved_module CRATE: target/lib/libCRATE.a, the static library that the kit makes of the crate for every x86-64 processor, and
# target/lib/CRATE.bc, the module of which it is made. The libraries below the crate are those that are proved. Both are
# kept while what they are made of stays the same; nothing is kept unless the kit says that the crate is proved.
proved_module() {
    local crate=$1 made=$root/target/lib each words=(--crate-name "$1" src/lib.rt --crate-type staticlib --links "$1=") sources
    mkdir -p "$made" out
    sources=$(sources_of "$crate") || return
    [ "$(cat "$made/$crate.sources" 2>/dev/null)" != "$sources" ] || [ ! -e "$made/lib$crate.a" ] || [ ! -e "$made/$crate.bc" ] || return 0
    rm -f "$made/$crate".{sources,bc,bc.new} "$made/lib$crate.a"
    for each in $(uses_of "$crate"); do words+=(--extern "$each=$(rlib_of "$each")"); done
    for each in std $(below "$crate" | sed '$d'); do words+=(-L "dependency=$(dirname "$(rlib_of "$each")")"); done
    (cd "crates/$crate" && "$kit/bin/rattle" build "${words[@]}" --antt-project "$kit/rattle/logic/antt-project.json" \
        --logic-built "$kit/logic_built" --cpu x86-64 --backend llvm --toolchain "$(keeping_toolchain "$made/$crate.bc.new")" \
        -o "$made/lib$crate.a" </dev/null) && [ -e "$made/lib$crate.a" ] && mv "$made/$crate.bc.new" "$made/$crate.bc" &&
        echo "$sources" >"$made/$crate.sources"
}

# uses_of CRATE: the libraries that it names, std among them; rlib_of LIBRARY: where the kit has made it, the repository's in out/
uses_of() { echo "std $(sed -nE "s/#.*//; s/^$1( [^:]*)?://p" crates.txt)"; }
rlib_of() {
    if [ -d "crates/$1" ]; then echo "$PWD/crates/$1/out/rlib/$1.rlib"; else echo "$kit/rlibs/$1.rlib"; fi
}

# parts_of CRATE: the objects of its library. Each has some of the calls, and what they take of the module: the compiler
# writes a large function in place only where it has one call, so that serving costs nothing for what else is there, and
# firmware links only what it calls.
parts_of() {
    case $1 in dalonjang_c) echo serve uart ask crc ;; *) echo all ;; esac
}

# calls_of PART <CALLS: those that it has
calls_of() {
    local uart='offer|quiet' ask='generate_get|generate_set|generate_mask|generate_set_get|parse_response' crc='calc_crc16'
    case $1 in
    uart) grep -E "_($uart)\$" ;;
    ask) grep -E "_($ask)\$" ;;
    crc) grep -E "_($crc)\$" ;;
    serve) grep -vE "_($uart|$ask|$crc)\$" ;;
    all) cat ;;
    esac
}

# make_library CRATE NAME INCLUDE TARGET FOLDER: FOLDER/libNAME.a of target/lib/CRATE.bc, with the calls of INCLUDE/NAME.h
make_library() {
    local crate=$1 name=$2 include=$3 target=$4 folder=$5 made part objects=() c=(-nostdinc -isystem "$std" -I"$(realpath "$3")")
    rm -rf "$folder"
    mkdir -p "$folder/made"
    made=$folder/made
    write_std
    for_target x86_64 -S -emit-llvm -x ir "$root/target/lib/$crate.bc" -Xclang -disable-llvm-passes -o "$made/proved.ll" &&
        sed -nE 's/^define [^@]*@([a-z_0-9]+)\(.*/\1/p' "$made/proved.ll" >"$made/calls" || return
    if [ "$target" != x86_64 ]; then
        for_target "$target" -S -emit-llvm -x c /dev/null -o "$made/empty.ll" &&
            for_target x86_64 "${c[@]}" -x c -fsyntax-only -Xclang -ast-dump=json "$include/$name.h" >"$made/header.json" &&
            "${BOUNDARY:-$root/bin/boundary}" "$name" "$made/header.json" "$made/proved.ll" "$made/empty.ll" "$made" &&
            for_target x86_64 "${c[@]}" -fsyntax-only "$made/layout.c" &&
            for_target "$target" -c -emit-llvm -x ir "$made/module.ll" -Xclang -disable-llvm-passes -o "$made/module.bc" || return
    fi
    for part in $(parts_of "$crate"); do
        make_part "$target" "$part" || return
        objects+=("$made/$part.o")
    done
    "$tools/llvm-ar" rcsD "$folder/lib$name.a" "${objects[@]}"
}

# make_part TARGET PART: the object of these calls, and what clang says of its stack. On x86-64 the module has them as they
# are called there, and those of other parts are kept to itself; elsewhere each call has its own piece of boundary.c.
make_part() {
    local target=$1 part=$2 call own=''
    for call in $(calls_of "$part" <"$made/calls"); do own="$own|$call"; done
    if [ "$target" = x86_64 ]; then
        sed -E "/@(${own#|})\\(/!s/^define (noundef )?(\{|void|i[0-9])/define internal \\1\\2/" "$made/proved.ll" >"$made/$part.ll" &&
            (cd "$made" && for_target x86_64 -fstack-usage -c -x ir "$part.ll" -o "$part.o")
    else
        # shellcheck disable=SC2046
        (cd "$made" && for_target "$target" "${c[@]}" -Wall -Wextra -fomit-frame-pointer \
            -fno-asynchronous-unwind-tables -fstack-usage -Xclang -mlink-builtin-bitcode -Xclang module.bc \
            $(calls_of "$part" <calls | sed 's/^/-DWITH_/') -S boundary.c -o "$part.s" && taking_few "$target" "$part.s" &&
            for_target "$target" -Wno-unused-command-line-argument -c "$part.s" -o "$part.o")
    fi
}

# taking_few TARGET ASSEMBLY: on a Cortex-M it takes, of C's memory functions under ARM's names, only those that the header
# names: where what is given lies by eight bytes the one for words serves, and where it lies by words the plain one; where a few
# bytes are cleared that lie anyhow, as on a Cortex-M0, clear_bytes of boundary.c.
taking_few() {
    case $1 in
    cortex-*) sed -i -E 's/\b__aeabi_memclr8\b/__aeabi_memclr4/; s/\b__aeabi_mem(cpy|move)[48]\b/__aeabi_mem\1/; s/\b__aeabi_memclr\b/clear_bytes/' "$2" ;;
    esac
}
