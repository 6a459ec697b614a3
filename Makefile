# make try         builds the program unproved, in some two minutes, keeps it, and prints the view of the stored recording
# make test        proves and tests all, and leaves the proved program: what .ci/run does
# make run         proves what the program is made of, builds it, and prints that view
# make examples    runs the commands of the documents and compares what they print, what is stored in examples, and what pages
#                  have of the sources
# make trials      tries the program against the system, with each request of memory refused, against a second program, with
#                  terminals over UDP, on a call that is captured, in a browser, on an archive and two machines, in pods, and
#                  as a package; and a capture of 2 GB
# make recordings  makes the stored recordings of examples/ anew
# make bench       how fast the program reads, lists, shows, sends and mixes, and how late live calls are
# make compare     how fast it mixes beside a second program on one thread (takes rustc)
# make install     the program and its page, below PREFIX
# make deb         the package cinderwool_VERSION_ARCHITECTURE.deb, of the program, its page, the documents and the examples
# Each of them takes the program that was built last; where there is none, `make run` is done first. PROGRAM=.. names another.
PREFIX ?= /usr/local
BUILT = crates/rtt_program/out/rtt_program
PROGRAM = $(BUILT)

.PHONY: try run test examples trials recordings bench compare install deb

try:
	@package/unproved $(BUILT)
	@cd crates/rtt_program && out/rtt_program read data/call.rtp 1001

run:
	cd crates/rtt_program && rt run -- read data/call.rtp 1001

test:
	.ci/run

$(BUILT):
	$(MAKE) run

ifneq ($(PROGRAM),$(BUILT))
$(PROGRAM):
	@echo "no program at $(PROGRAM)" >&2; exit 1
endif

examples: $(PROGRAM)
	examples/check $(PROGRAM)
	examples/pcap/try $(PROGRAM)
	examples/pictures/try $(PROGRAM)
	examples/captures/try $(PROGRAM)
	examples/wrong/try $(PROGRAM)
	examples/octets/try $(PROGRAM)
	examples/words
	examples/columns --check
	examples/definitions --check
	examples/crates --check

trials: $(PROGRAM)
	examples/system $(PROGRAM)
	examples/memory $(PROGRAM)
	examples/second-program $(PROGRAM)
	examples/live/try $(PROGRAM)
	examples/live/real $(PROGRAM)
	examples/plays/try $(PROGRAM)
	examples/captures/call $(PROGRAM)
	examples/pcap/large
	examples/web/try $(PROGRAM)
	examples/archives/try $(PROGRAM)
	examples/pods/try $(PROGRAM)
	package/try $(PROGRAM)

recordings: $(PROGRAM)
	examples/make $(PROGRAM)

bench: $(PROGRAM)
	bench/read $(PROGRAM)
	bench/list $(PROGRAM)
	bench/send $(PROGRAM)
	for it in show show-64 times script channel relay; do bench/run $$it $(PROGRAM) || exit 1; done
	bench/mix $(PROGRAM)
	bench/idle $(PROGRAM)
	bench/threads $(PROGRAM)
	bench/cascade $(PROGRAM)
	bench/live $(PROGRAM)

compare: $(PROGRAM)
	bench/compare $(PROGRAM)

install: $(PROGRAM)
	install -D -m 755 $(PROGRAM) $(DESTDIR)$(PREFIX)/bin/rtt_program
	install -D -m 644 rtt_program.1 $(DESTDIR)$(PREFIX)/share/man/man1/rtt_program.1

deb: $(PROGRAM)
	package/deb $(PROGRAM)
