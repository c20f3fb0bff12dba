# The README's commands. `make test` is what .ci/run calls; its last line is rt ci's 'N passed, 0 failed'.
.PHONY: help test proved prove beside frame-runs driver-runs targets host-runs ask-runs linecount-runs package-runs peers lib measure serve ask install clean
.NOTPARALLEL: # the runs use what rt ci has proved
PREFIX ?= /usr/local

# this list
help:
	@echo 'make WHAT, where WHAT is one of'
	@awk '/^# /{ said = said (said == "" ? "" : "\n               ") substr($$0, 3); next } \
	    /^[a-z-]+:/ && said != "" { sub(":.*", ""); printf "  %-12s %s\n", $$0, said } { said = "" }' Makefile

# everything; the verdict is said at the end, when the runs are through, and only then
test: proved beside frame-runs driver-runs targets host-runs ask-runs linecount-runs peers package-runs
	@tail -n 1 out/ci.log | grep -x '[0-9]* passed, 0 failed'

# rt ci: every crate proved, the must-fail edits refused, the programs run
prove: proved
	@tail -n 1 out/ci.log

proved:
	@bin/prove

# the ported calls beside the Rust they are ported from, on the same bytes (CALLS="5000000 2000000" for more)
beside:
	@bin/beside $(CALLS)

# the frame, modules 5 to 7, call by call beside the Rust (FRAMES=5000000 for more)
frame-runs:
	@bin/frame-runs $(FRAMES)

# the C library as firmware calls it: known answers, random calls, whole frames beside the Rust (RUNS="5000000 5000000" for more)
driver-runs:
	@bin/driver-runs $(RUNS)

# the library for every processor: its layout, size and stack, and runs on each as far as an emulator can be had (UPDATE=1
# writes docs/TARGETS.md)
targets:
	@UPDATE=$(UPDATE) bin/targets $(TARGET)

# the server of host/ by a client of our own: streams, clients, lines, image, options
host-runs:
	@bin/host-runs

# the bench tool of host/ against that server, against others that reply with something else, and its command line
ask-runs:
	@bin/ask-runs

# linecount beside a plain model, on logs in pieces of every size and on one of 4 GiB (LOGS=200 for more)
linecount-runs:
	@bin/linecount-runs

# what is installed, the manual pages, the README's example and numbers, the first steps on a machine
package-runs:
	@bin/package-runs

# the server and mbpoll, pymodbus and libmodbus, linecount over what they sent, and the bench tool and both as servers, as
# far as their packages can be had
peers:
	@bin/peers

# the static library for firmware, for this machine's processor (TARGET=cortex-m3 for another; an unknown one lists them)
lib:
	@bin/proved dalonjang_c
	@bin/lib $(TARGET)

# instructions per request beside two peers, held against docs/COST.md (UPDATE=1 writes it)
measure:
	@UPDATE=$(UPDATE) bin/measure

# a Modbus server on 127.0.0.1:1502 (ARGS="--port 1503" for other options, ARGS=--help lists them)
serve:
	@bin/serve $(ARGS)

# asks a Modbus unit (ARGS="--tcp 127.0.0.1:1502 --unit 1 read holdings 0 4"; ARGS=--help lists the options)
ask:
	@bin/ask $(ARGS)

# header, library, pkg-config file, server, bench tool, linecount and manual pages under PREFIX (/usr/local; DESTDIR for packagers)
install:
	@bin/install $(PREFIX)

# all that was made and proved
clean:
	rm -rf out target crates/*/out
