# For bin/targets, which sources it: docs/TARGETS.md, and what it is held against. The libraries stand in $room.
# shellcheck shell=bash
# shellcheck disable=SC2016,SC2154

# measure_libraries: out/targets/TARGET/figures for each
measure_libraries() {
    local target made part
    for target in $targets; do
        made=$room/$target/lib/dalonjang/made
        for part in $(parts_of dalonjang_c); do
            bin/figures "$made/$part.o" "$made/$part.su" || return
        done | added_up >"$room/$target/figures" || return
    done
}

# added_up <FIGURES OF EACH PART: those of all together
added_up() {
    awk '$1 == "function" || $1 == "stack" { print; next }
        $1 == "outside" { for (i = 2; i <= NF; i++) if (!taken[$i]++) outside = outside " " $i; next }
        { if (!($1 in sum)) order[++n] = $1; sum[$1] += $2 }
        END { for (i = 1; i <= n; i++) print order[i], sum[order[i]]; print "outside" outside }'
}

# figure TARGET WORD..: the rest of the line that begins with these words
figure() {
    sed -nE "s/^${*:2}( +|\$)//p" "$room/$1/figures"
}

size_table() {
    local target
    echo '| target | text | rodata | data | bss | from outside |'
    echo '|---|--:|--:|--:|--:|---|'
    for target in $targets; do
        echo "| $target | $(figure "$target" text) | $(figure "$target" rodata) | $(figure "$target" data) |" \
            "$(figure "$target" bss) | $(figure "$target" outside | sed 's/[^ ]\+/`&`/g; s/ /, /g; s/^$/nothing/') |"
    done
}

function_table() {
    local target
    echo '| target | functions of over 1,000 bytes |'
    echo '|---|---|'
    for target in $targets; do
        echo "| $target | $(figure "$target" function | sed 's/\(.*\) \(.*\)/`\1` \2/' | paste -sd, | sed 's/,/, /g') |"
    done
}

stack_table() {
    local target call calls
    calls=$(sed -n 's/^stack \(.*\) .*/\1/p' "$room/cortex-m3/figures")
    # shellcheck disable=SC2086
    printf '| target |%s\n' "$(printf ' `%s` |' $calls)"
    # shellcheck disable=SC2086
    printf '|---|%s\n' "$(printf -- '--:|%.0s' $calls)"
    for target in $targets; do
        printf '| %s |' "$target"
        for call in $calls; do printf ' %s |' "$(figure "$target" stack "$call")"; done
        echo
    done
}

# Instructions by the emulator's clock: one takes 1,024 ns, a tick 40; cost.c gives the ticks of 4 requests.
cost_table() {
    local transport
    for transport in tcp rtu ascii; do requests $transport; done >"$room/requests"
    sed 's/.*,//' "$room/requests" >"$room/rows"
    logged build build_board cortex-m3 "$room/cortex-m3/cost" -Iinclude tests/board/cost.c bench/rows.c \
        "$room/cortex-m3/lib/dalonjang/libdalonjang.a"
    folder=$room run_board cortex-m3 cost -icount shift=10 >"$room/cost.log" 2>&1 ||
        fail "the cost on a Cortex-M3: $(cat "$room/cost.log")"
    echo '| transport | request | instructions |'
    echo '|---|---|--:|'
    sed -E 's/(.*),([a-z]+) .*/| \U\2\E | \1/' "$room/requests" |
        paste -d'|' - <(awk '{ printf " %d |\n", $1 * 40 / 1024 / 4 + 0.5 }' "$room/cost.log") | sed 's/|\( [0-9]* |\)$/ |\1/'
}

peer_line() {
    echo 'There is no figure of the crate rmodbus beside these: no Debian package has the standard library of Rust for this'
    echo 'processor.'
}

# page: out/TARGETS.md, bench/targets.md with its tables; what the emulator counts is as docs/TARGETS.md has it, unless that
# page is written anew
page() {
    local tables=$room/tables
    mkdir -p "$tables"
    size_table >"$tables/SIZES"
    function_table >"$tables/FUNCTIONS"
    stack_table >"$tables/STACK"
    if [ -n "${UPDATE:-}" ]; then cost_table; else sed -n '/^| transport /,/^$/{/./p;}' docs/TARGETS.md; fi >"$tables/COST"
    peer_line >"$tables/PEER"
    sed -e "s/@KIT@/$(cut -d' ' -f1 "$kit/KIT-ID")/" \
        -e "/^@FUNCTIONS@\$/{r $tables/FUNCTIONS" -e 'd;}' -e "/^@SIZES@\$/{r $tables/SIZES" -e 'd;}' \
        -e "/^@STACK@\$/{r $tables/STACK" -e 'd;}' \
        -e "/^@COST@\$/{r $tables/COST" -e 'd;}' -e "/^@PEER@\$/{r $tables/PEER" -e 'd;}' bench/targets.md >out/TARGETS.md
}

# What is over 2 per cent more than in docs/TARGETS.md: text (the first number) and every stack; another symbol from
# outside; and rows that are on one page only.
grown() {
    awk -F' *[|] *' '
        FNR == 1 { table = "" }
        $2 == "target" { table = $3 == "text" ? "size" : $3 ~ /dalonjang/ ? "stack" : "" }
        $2 == "target" { for (i = 3; i < NF; i++) head[i] = $i }
        table == "" || $2 == "target" || $2 ~ /^-*$/ { next }
        { row = $2 " " table }
        NR == FNR { old[row] = $0; next }
        !(row in old) { print row ": not in docs/TARGETS.md"; next }
        {
            split(old[row], was)
            for (i = 3; i < NF; i++) {
                if (table == "size" && i > 3 && i < NF - 1) continue
                outside = table == "size" && i == NF - 1
                if (outside ? $i != was[i] : $i > was[i] * 1.02) print $2 ": " head[i] " " $i ", docs/TARGETS.md says " was[i]
            }
            delete old[row]
        }
        END { for (row in old) print row ": in docs/TARGETS.md alone" }' docs/TARGETS.md out/TARGETS.md
}

# What the header says of the stack: the figures, in steps of 50 bytes.
header_says() {
    most_of dalonjang_drive 'dalonjang_drive takes the most'
    most_of dalonjang_generate_set 'of those that ask dalonjang_generate_set'
}
most_of() {
    local target said=''
    for target in cortex-m0 cortex-m3 cortex-m4 armv7 x86_64 aarch64; do
        said="$said, $((($(figure $target stack "$1") + 49) / 50 * 50))${said:+ on $target}"
        [[ $said == *" on "* ]] || said="$said bytes on $target"
    done
    said="$2: up to ${said#, };"
    sed 's/^ \* *//' include/dalonjang.h | tr '\n' ' ' | grep -qF "$said" || fail "include/dalonjang.h should say: $said"
}
