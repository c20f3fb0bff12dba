# For the programs of bin/, which source it: what they need, from packages to the oracle and the server.
# shellcheck shell=bash
source=../shared/docs/src/src # the crate's source stands beside the repository, never in it
vectors=out/oracle/target/oracle/vectors
seed=${SEED:-1}
kit_wanted='rattle-kit-13f logic dac8208d650f15bf' # as `rt version` says it
PATH=$PATH:${HOME:-/root}/.cargo/bin

fail() {
    echo "$(basename "$0"): $1" >&2
    exit 1
}

# logged NAME COMMAND..: quiet, unless it fails
logged() {
    local log=out/$1.log
    shift
    "$@" >"$log" 2>&1 || { cat "$log" >&2; fail "failed: $*"; }
}

# can_install: whether this machine lets us, after which it knows what there is; fetch PACKAGE..: does it
can_install() {
    [ "$(id -u)" = 0 ] && command -v apt-get >/dev/null && apt-get update >out/packages.log 2>&1
}
fetch() {
    DEBIAN_FRONTEND=noninteractive apt-get install -y --no-install-recommends "$@"
}

# packages [rust|python|sqlite]..: a C compiler's headers, and Rust, Python or SQLite where it is said
packages() {
    local missing='' rust=''
    { [ -e /usr/include/stdio.h ] && command -v gcc >/dev/null; } || missing='gcc libc6-dev'
    [[ " $* " != *' python '* ]] || [ -x /usr/bin/python3 ] || missing="$missing python3"
    [[ " $* " != *' sqlite '* ]] || [ -e /usr/include/sqlite3.h ] || missing="$missing libsqlite3-dev"
    [[ " $* " != *' rust '* ]] || command -v cargo >/dev/null || rust='cargo rustc'
    [ -z "$missing$rust" ] && return
    can_install || fail "these packages are missing:$missing $rust"
    # the crate wants Rust 1.81; in Debian 12 only the packages -web are new enough
    if [ -n "$rust" ] && apt-cache show cargo-web >/dev/null 2>&1; then rust='cargo-web rustc-web'; fi
    # shellcheck disable=SC2086
    logged packages fetch $missing $rust
}

# put FROM TO: copied only where it differs, so that cargo builds again exactly what changed
put() {
    cmp -s "$1" "$2" || install -D -m 644 "$1" "$2"
}

# The published sources with our window, put together in out/oracle/rmodbus.
gather_crate() {
    local file crate=out/oracle/rmodbus
    (cd "$source" && sha256sum --check --quiet --strict "$OLDPWD/oracle/SHA256SUMS") ||
        fail 'the Rust source is not the published one'
    while read -r _ file; do put "$source/$file" "$crate/src/$file"; done <oracle/SHA256SUMS
    put oracle/rmodbus/tests.rs $crate/src/tests.rs
    for file in README.md CHANGELOG.md; do put /dev/null $crate/$file; done # lib.rs includes them
}

# The workspace around the crate, in out/oracle.
build_vectors() {
    local file
    gather_crate
    find oracle -name '*.toml' -o -name '*.rs' | while read -r file; do put "$file" "out/$file"; done
    logged cargo cargo build --offline --profile oracle \
        --manifest-path out/oracle/Cargo.toml --target-dir out/oracle/target
}

# need_kit: what proves and compiles is here; another version of it is used, and said
need_kit() {
    local here
    command -v rt >/dev/null || fail "the Rattle kit is not on this machine: its program rt is wanted, of $kit_wanted"
    here=$(rt version)
    [ "$here" = "$kit_wanted" ] || echo "$(basename "$0"): the kit here is $here, where $kit_wanted was in use" >&2
}

# kit_folder: where the kit stands, whose guide `rt doc` names
kit_folder() { dirname "$(rt doc)"; }

# below CRATE..: they and the crates of this repository that they are built on, a line each, every crate after those that
# it is built on, which is the order in which rt proves them
below() {
    awk -v wanted="$*" '
        { sub(/#.*/, ""); at = index($0, ":"); split(at ? substr($0, 1, at - 1) : $0, head, " ") }
        head[1] != "" { uses[head[1]] = at ? substr($0, at + 1) : "" }
        function visit(name,  each, n, i) {
            if (!(name in uses) || seen[name]++) return
            n = split(uses[name], each, " ")
            for (i = 1; i <= n; i++) visit(each[i])
            print name
        }
        END { n = split(wanted, each, " "); for (i = 1; i <= n; i++) visit(each[i]) }' crates.txt
}

# progress CRATE <WHAT RT SAYS: where nothing was said for two seconds, how many crates are proved and which is next; of
# those that it need not prove again rt says nothing
progress() {
    local line next='' said='' status all
    all=$(below "$1")
    while true; do
        status=0
        read -r -t 2 line || status=$?
        if [ $status = 0 ]; then
            [[ ! $line =~ ^rt:\ chose\ .*\ for\ ([a-z0-9_]+)$ ]] || next=${BASH_REMATCH[1]}
            continue
        fi
        [ $status -gt 128 ] || return 0 # nothing more comes
        [ "$next" = "$said" ] ||
            echo "proving: $(($(grep -nx "$next" <<<"$all" | cut -d: -f1) - 1)) of $(wc -l <<<"$all") crates done, now $next"
        said=$next
    done
}

# kind_of CRATE: a library, a static library or a program; made_of CRATE: the file that tells what the kit has made of it
kind_of() {
    if [ -e "crates/$1/src/main.rt" ]; then echo program
    elif grep -qE "^$1 +staticlib" crates.txt; then echo static
    else echo library; fi
}
made_of() {
    case $(kind_of "$1") in
    program) echo "crates/$1/out/$1" ;;
    library) echo "crates/$1/out/rlib/$1.rlib/format" ;; # it has the sum of the library's other files
    static) echo /dev/null ;;                             # bin/lib.sh makes it
    esac
}

# sources_of CRATE: a sum of all that its proof reads: the kit, crates.txt, and the files of the crate and of those below it
sources_of() {
    local each part folders=()
    for each in $(below "$1"); do
        for part in src specs proofs; do [ ! -d "crates/$each/$part" ] || folders+=("crates/$each/$part"); done
    done
    { rt version && cat crates.txt && find "${folders[@]}" -type f -print0 | LC_ALL=C sort -z | xargs -0 sha256sum; } |
        sha256sum | cut -d' ' -f1
}

# mark_of CRATE: what out/built/CRATE holds while the kit's proof of it is of the sources as they stand, and what it made
# of them is there. is_built CRATE..: whether that is so of all of these; note_built CRATE..: notes it, as the kit says it.
mark_of() { echo "$(sources_of "$1") $(sha256sum <"$(made_of "$1")" | cut -d' ' -f1)"; }
is_built() {
    local crate
    for crate; do
        [ -e "$(made_of "$crate")" ] && [ "$(cat "out/built/$crate" 2>/dev/null)" = "$(mark_of "$crate")" ] || return
    done
}
note_built() {
    local crate
    mkdir -p out/built
    for crate; do mark_of "$crate" >"out/built/$crate"; done
}

# rt_for CRATE: the kit proves it and what is below it, as far as that is not proved, and makes the library or the program;
# a program is run for that, on its own input
rt_for() {
    local kind input=/dev/null
    kind=$(kind_of "$1")
    cd "crates/$1" || return
    [ ! -e stdin ] || input=stdin
    if [ "$kind" = program ]; then rt run <$input 2>&1 >/dev/null; else rt lib 2>&1 </dev/null; fi
}

# prove CRATE..: proved where they are not yet, or have changed; that takes minutes the first time
prove() {
    local crate sources lower
    need_kit
    for crate; do
        mapfile -t lower < <(below "$crate" | sed '$d')
        if is_built "$crate" && { [ "$(kind_of "$crate")" = program ] || is_built "${lower[@]}"; }; then continue; fi
        sources=$(sources_of "$crate")
        (rt_for "$crate") | tee out/proved.log | progress "$crate" >&2 || { cat out/proved.log >&2; fail "not proved: $crate"; }
        [ "$sources" = "$(sources_of "$crate")" ] || fail "the sources of $crate changed while they were proved"
        case $(kind_of "$crate") in program) note_built "$crate" ;; *) note_built "${lower[@]}" "$crate" ;; esac
    done
}

# library CRATE..: $LIB, or the static libraries of these crates for x86-64, from the sources as they stand: what is proved is
# not proved again, nor is a library made again that is made of these sources
library() {
    local crate
    if [ -z "${LIB:-}" ]; then
        for crate in "$@"; do
            prove "$crate"
            case $crate in
            dalonjang_c) logged lib bin/lib x86_64 && LIB="${LIB:-} target/lib/x86_64/libdalonjang.a" ;;
            *) logged lib made_by_kit "$crate" && LIB="${LIB:-} target/lib/lib$crate.a" ;;
            esac
        done
    fi
}

made_by_kit() { (. bin/lib.sh && proved_module "$1"); }

# machine_library: $LIB, or the library for this machine's processor, from the sources as they stand
machine_library() {
    if [ -z "${LIB:-}" ]; then
        prove dalonjang_c
        logged lib bin/lib
        LIB=target/lib/$(uname -m)/libdalonjang.a
    fi
}

# linecount_program: $LINECOUNT, or the program that rt makes of the sources as they stand
linecount_program() {
    if [ -z "${LINECOUNT:-}" ]; then
        prove linecount
        LINECOUNT=$PWD/crates/linecount/out/linecount
    fi
}

# machine_cc WORDS..: this machine's own compiler, for what is linked with the machine's library
machine_cc() {
    logged cc "${CC:-gcc}" -O2 -Wall -Wextra -Werror -Iinclude "$@"
}

# link_server NAME FILE..: out/NAME, the server of these objects and sources around the machine's library
link_server() {
    # shellcheck disable=SC2086
    machine_cc -o "out/$1" "${@:2}" $LIB -lsqlite3
}

# link_tool NAME FILE..: out/NAME, the bench tool of these, likewise
link_tool() {
    # shellcheck disable=SC2086
    machine_cc -o "out/$1" "${@:2}" $LIB
}

# Of host/ the files of the server and those of the bench tool, which has its own and shares the serial lines.
server_parts() { (cd host && ls ./*.c) | sed 's/^..//; /^ask/d'; }
tool_parts() { (cd host && echo ask*.c serial.c); }

# build_server: out/server, the server of host/; build_tool: out/ask, the bench tool
# shellcheck disable=SC2046
build_server() { build_program link_server server $(server_parts); }
# shellcheck disable=SC2046
build_tool() { build_program link_tool ask $(tool_parts); }
build_program() {
    local part made=()
    mkdir -p out/host
    for part in "${@:3}"; do
        machine_cc -c -o "out/host/$part.o" "host/$part"
        made+=("out/host/$part.o")
    done
    "$1" "$2" "${made[@]}"
}

# wrong_server NAME FILE OLD NEW, wrong_tool NAME FILE OLD NEW: out/NAME, the server or the bench tool with one place in
# FILE of host/ changed, after it was built
# shellcheck disable=SC2046
wrong_server() { wrong_program link_server "$1" "$2" "$3" "$4" $(server_parts); }
# shellcheck disable=SC2046
wrong_tool() { wrong_program link_tool "$1" "$2" "$3" "$4" $(tool_parts); }
wrong_program() {
    local text part from=() room=out/wrong-host/$2
    text=$(<"host/$3")
    [[ $text == *"$4"* ]] || fail "host/$3 has no '$4' that could be changed"
    rm -rf "$room"
    mkdir -p "$room"
    cp host/* "$room"
    printf '%s\n' "${text%%"$4"*}$5${text#*"$4"}" >"$room/$3"
    for part in "${@:6}"; do
        if [[ $3 == *.h || $part == "$3" ]]; then from+=("$room/$part"); else from+=("out/host/$part.o"); fi
    done
    "$1" "$2" "${from[@]}"
}

# saw STATUS LOG WHO WHAT: a test sees a wrong server when it says what is wrong and ends with 1; both are counted, and
# what each said is kept in out/host-runs-wrong.log or out/peers-wrong.log
tried=0 seen=0
saw() {
    local all
    all=out/$(basename "$0")-wrong.log
    [ $tried != 0 ] || : >"$all"
    tried=$((tried + 1))
    echo "$4; $3 says: $(tail -n 1 "$2")" >>"$all"
    if [ "$1" = 1 ] && grep -q '^wrong: ' "$2"; then
        seen=$((seen + 1))
    else
        echo "$(basename "$0"): $3 did not see a wrong server: $4 (status $1)" >&2
    fi
}

# wrong_ones FOLDER: makes it anew, for one_wrong and all_seen; one_wrong NUMBER TEST WHAT COMMAND..: starts the command,
# which prints a status and writes FOLDER/NUMBER.log, with at most four at a time, since they mostly wait; all_seen: waits
# for all of them, and what each said is counted and kept
wrong_ones() {
    wrongs=$1
    rm -rf "$wrongs"
    mkdir -p "$wrongs"
}
one_wrong() {
    printf '%s@%s\n' "$2" "$3" >"$wrongs/$1.what"
    ("${@:4}" >"$wrongs/$1.status") &
    while [ "$(jobs -pr | wc -l)" -ge 4 ]; do wait -n || true; done
}
all_seen() {
    local n test what
    wait
    for ((n = 1; n <= $1; n++)); do
        IFS=@ read -r test what <"$wrongs/$n.what"
        saw "$(cat "$wrongs/$n.status")" "$wrongs/$n.log" "$test" "$what"
    done
}

# compare CHECK COMMAND N: the statuses of both programs, as "vectors check"
# compare CHECK COMMAND N: the statuses of both programs, as "vectors check"; CHECK is run by $RUN, or as x86-64's
compare() {
    local status
    set +e
    "$vectors" "$2" "$3" "$seed" 2>out/vectors.log | "${RUN:-bin/x86run}" "$1" "$3" >out/check.log 2>&1
    status=("${PIPESTATUS[@]}")
    set -e
    echo "${status[*]}"
}

# equal NAME CHECK COMMAND N: every call of the library gives what is expected; what check said is in out/check.log
equal() {
    local said
    said=$(compare "$2" "$3" "$4")
    if [ "$said" != '0 0' ]; then
        cat out/vectors.log out/check.log >&2
        fail "$1: the comparison failed (status of vectors and check: $said)"
    fi
}

thousands() {
    sed -E ':a; s/([0-9])([0-9]{3})($|[^0-9])/\1,\2\3/; ta'
}
