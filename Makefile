# make help:           this list.
# make run:            plays SCRIPT through Rehearse, each line beside its answer. SCRIPT=FILE plays another script than the sample.
# make show:           plays SCRIPT and shows what happens: each answer in words, who stands where, a lane for each process.
#                      SVG=FILE draws the lanes too.
# make lib:            the library, target/staticlib/libkernel.a.
# make rehearse:       the program Rehearse, target/bin/rehearse.
# make install:        the header, the library with a file for pkg-config, and Rehearse, below PREFIX; DESTDIR, if given, goes before it.
# make test:           every test and proof; its last step is the gate of the proof kit.
# make build:          proves every crate, JOBS side by side, over what is proved already.
# make fuzz:           the tests with a fresh seed, which is printed, for SECONDS.
# make bench:          the library against plain C on the same work, as ratios; the best of four places in a cache line.
# make bench-rehearse: Rehearse against a plain C program over the library, in megabytes a second.
# make plot:           the bench at more sizes, drawn into docs/cost.svg.
# make cortex-m:       an experiment outside of what is proved: the library on an emulated Cortex-M3.
# make clean:          removes all that was built.

LIB = target/staticlib/libkernel.a
CFLAGS = -std=c11 -Wall -Wextra -O2
TESTS = cargo run --quiet --release --manifest-path tests/Cargo.toml --
EXAMPLES = nine probe sheet monitor codes
SHOWN = forty odd
INSTALLED = target/installed
PLACES = 16 32 48 64
SECONDS ?= 60
SCRIPT ?= examples/script.txt
PREFIX ?= /usr/local
VERSION = $(shell sed -n 's/^.define KERNEL_VERSION "\(.*\)"/\1/p' include/kernel.h)

# How many crates make build proves at a time. A check takes 1 to 4 GB of memory.
JOBS ?= $(shell nproc)

.PHONY: help run show lib rehearse install test build fuzz bench bench-rehearse plot cortex-m clean

# Makes a target without a word, unless that fails.
quietly = @mkdir -p target && $(MAKE) $(1) > target/make.log 2>&1 || { cat target/make.log; exit 1; }
first = @test -e $(1) || echo "What this needs is proved and built first: some minutes." >&2

help:
	@sed -n '/^#/!q; s/^# //p' Makefile

run:
	$(call first,target/bin/rehearse)
	$(call quietly,rehearse)
	@target/bin/rehearse < $(SCRIPT) | LC_ALL=C awk -f tools/columns.awk $(SCRIPT) -

show:
	$(call first,$(LIB))
	$(call quietly,target/show)
	@target/show $(SCRIPT) $(SVG)

lib:
	cd crates/kernel_c && rt lib
	install -D -m 644 crates/kernel_c/out/libkernel_c.a $(LIB)

# What rt builds it runs too: on no input Rehearse writes nothing.
rehearse:
	cd crates/rehearse && rt run < /dev/null
	install -D crates/rehearse/out/rehearse target/bin/rehearse

target/%: examples/%.c lib include/kernel.h
	gcc $(CFLAGS) $< $(LIB) -o $@

target/show: lib $(wildcard tools/*.c tools/*.h) include/kernel.h
	gcc $(CFLAGS) tools/*.c $(LIB) -o $@

install: lib rehearse
	install -d $(addprefix $(DESTDIR)$(PREFIX)/,include lib/pkgconfig bin)
	install -m 644 include/kernel.h $(DESTDIR)$(PREFIX)/include
	install -m 644 $(LIB) $(DESTDIR)$(PREFIX)/lib
	sed 's,@PREFIX@,$(PREFIX),; s,@VERSION@,$(VERSION),' rungteasel.pc.in > $(DESTDIR)$(PREFIX)/lib/pkgconfig/rungteasel.pc
	install target/bin/rehearse $(DESTDIR)$(PREFIX)/bin

build:
	rt all check --jobs $(JOBS)

test: build
	$(MAKE) $(EXAMPLES:%=target/%) target/show rehearse
	for name in $(EXAMPLES); do target/$$name | diff examples/$$name.txt - || exit 1; done
	target/show tests/show/script.txt target/sample.svg | diff tests/show/sample.txt -
	diff docs/sample.svg target/sample.svg
	for name in $(SHOWN); do target/show tests/show/$$name.script target/$$name.svg | diff tests/show/$$name.txt - || exit 1; done
	for name in $(SHOWN); do diff tests/show/$$name.svg target/$$name.svg || exit 1; done
	$(MAKE) --silent run SCRIPT=tests/show/script.txt | diff tests/show/run.txt -
	$(MAKE) install DESTDIR=$(INSTALLED) PREFIX=
	sed 's,"../include/kernel.h",<kernel.h>,' examples/nine.c > $(INSTALLED)/nine.c
	gcc $(CFLAGS) -I$(INSTALLED)/include $(INSTALLED)/nine.c -L$(INSTALLED)/lib -lkernel -o $(INSTALLED)/nine
	$(INSTALLED)/nine | diff examples/nine.txt -
	$(TESTS)
	tools/gate.sh

fuzz: lib rehearse
	$(TESTS) fuzz $(SECONDS)

target/bench-%: lib bench/bench.c bench/plain.c bench/plain.h include/kernel.h
	gcc $(CFLAGS) -DPLACE=$* bench/bench.c bench/plain.c $(LIB) -o $@

bench: $(PLACES:%=target/bench-%)
	python3 bench/best.py $^

target/rehearse-plain: lib bench/rehearse.c tools/script.c tools/script.h include/kernel.h
	gcc $(CFLAGS) bench/rehearse.c tools/script.c $(LIB) -o $@

bench-rehearse: rehearse target/rehearse-plain
	python3 bench/rehearse.py target/bin/rehearse target/rehearse-plain target

plot: $(PLACES:%=target/bench-%)
	python3 bench/best.py $^ 4 8 16 32 64 128 256 512 1023 > target/bench.txt
	python3 bench/plot.py < target/bench.txt > docs/cost.svg

cortex-m: lib
	experiments/cortex-m.sh

clean:
	rm -rf target tests/target crates/*/out
