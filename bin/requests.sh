# For bin/measure and bin/targets, which source it: the requests whose cost is counted, a line for each: its name, a comma,
# then transport, to whom and how, function, start and count, as bench/rows.h has them.
# shellcheck shell=bash

# asked TEXT TRANSPORT HOW FUNCTION START COUNT..: for each count a request, with the count where TEXT has #
asked() {
    local count
    for count in "${@:6}"; do echo "${1/\#/$count},$2 $3 $4 $5 $count"; done
}

# requests TRANSPORT: those that are compared
requests() {
    local registers='121 123' coils='1944 1968' most=123 # the most in a TCP frame of the crate, and in any frame
    [ "$1" != tcp ] || most=121
    asked 'read # registers' "$1" ours 3 104 2 125
    asked 'read # coil on a byte' "$1" ours 1 104 1
    asked 'read # coil off a byte' "$1" ours 1 107 1
    asked 'read # coils on a byte' "$1" ours 1 104 2000
    asked 'read # coils off a byte' "$1" ours 1 107 2000
    asked 'write # register' "$1" ours 6 104 1
    asked 'write # coil' "$1" ours 5 107 1
    asked 'write # registers' "$1" ours 16 104 $registers
    asked 'write # coils on a byte' "$1" ours 15 104 $coils
    asked 'write # coils off a byte' "$1" ours 15 107 $coils
    asked 'mask write' "$1" ours 22 104 1
    asked 'read/write # and 121 registers' "$1" ours 23 104 125
    asked 'exception: # registers past the end' "$1" ours 3 65535 2
    asked 'exception: a count of #' "$1" ours 3 104 0
    asked 'foreign: read # registers' "$1" foreign 3 104 2
    asked 'foreign: write # registers' "$1" foreign 16 104 $most
    asked 'broadcast: write # register' "$1" broadcast 6 104 1
    asked 'broadcast: write # registers' "$1" broadcast 16 104 $most
    [ "$1" != tcp ] || return 0
    asked 'wrong check: read # registers' "$1" spoilt 3 104 2
    asked 'wrong check: write # registers' "$1" spoilt 16 104 $most
    [ "$1" = ascii ] || return 0
    asked 'lower case: read # registers' "$1" small 3 171 2 # 171 has letters
    asked 'lower case: write # registers' "$1" small 16 104 $most
}

# From few to the most, for the picture.
growing_requests() {
    asked 'read # registers' tcp ours 3 104 1 2 4 8 16 32 64 125
    asked 'read # coils off a byte' tcp ours 1 107 1 8 64 250 500 1000 2000
    asked 'write # registers' tcp ours 16 104 1 2 4 8 16 32 64 121
    asked 'write # coils off a byte' tcp ours 15 107 1 8 64 250 500 1000 1944
}
