.PHONY: help test demo sheet install uninstall dist bench differential attack clean

# What there is.
help:
	@echo 'make demo          build the proved library, and show a small table through it'
	@echo 'make sheet         a morning of platform occupations, as the program occupations prints it'
	@echo 'make test          the gate: all proofs, all programs, the comparison with the Rust'
	@echo 'make install       the library, its headers and its pkg-config file, the program: PREFIX=/usr/local DESTDIR='
	@echo 'make uninstall     take these away again'
	@echo 'make dist          a tar file for machines without the kit; after make test, or with VERDICT=none'
	@echo 'make bench         the time of each call, against the Rust'
	@echo 'make differential  the comparison with the Rust: SECONDS=300 SEED=1'
	@echo 'make attack        the library as shipped against the model: CALLS=10000000 SEED=1'
	@echo 'make clean         remove what was built'

# The gate: all proofs, all programs, and the comparison with the Rust.
test:
	.ci/run

# A small table, row by row, as bytes and as values.
demo: target/staticlib/librook_row.a
	$(CC) -std=c11 -Wall -Wextra -Werror -O2 -Iinclude examples/demo.c target/staticlib/librook_row.a -o target/demo
	target/demo

# The sheet for the wall: platform, unit, arrival, departure.
sheet: target/staticlib/librook_row.a target/bin/occupations
	@$(CC) -std=c11 -Wall -Wextra -Werror -O2 -Iinclude examples/sheet.c target/staticlib/librook_row.a -o target/sheet
	@echo 'platform|unit|arrival|departure'
	@target/sheet | target/bin/occupations

# The library, its headers and its pkg-config file, the program occupations: make install PREFIX=/usr/local DESTDIR=
PREFIX = /usr/local
DESTDIR =
VERSION := $(shell sed -n 's/^.define ROOK_ROW_VERSION "\(.*\)"/\1/p' include/rook_row.h)
folder = $(DESTDIR)$(abspath $(PREFIX))
install: target/staticlib/librook_row.a target/bin/occupations
	install -d $(folder)/lib/pkgconfig $(folder)/include $(folder)/bin
	install -m 644 target/staticlib/librook_row.a $(folder)/lib/
	install -m 644 include/rook_row.h include/rook_list.h $(folder)/include/
	install target/bin/occupations $(folder)/bin/
	sed 's|@PREFIX@|$(abspath $(PREFIX))|; s|@VERSION@|$(VERSION)|' rook_row.pc.in > $(folder)/lib/pkgconfig/rook_row.pc
uninstall:
	rm -f $(folder)/lib/librook_row.a $(folder)/include/rook_row.h $(folder)/include/rook_list.h \
	    $(folder)/lib/pkgconfig/rook_row.pc $(folder)/bin/occupations

# What a machine without the kit needs, in a tar file. It goes by the verdict of the gate; VERDICT=none packs without it.
VERDICT = target/verdict
dist: target/staticlib/librook_row.a target/bin/occupations
	@tools/dist '$(VERSION)' '$(VERDICT)'

# Time of each call, against the Rust.
bench: target/staticlib/librook_row.a target/staticlib/librook_probe.a
	cargo run --release --offline --quiet --manifest-path native/Cargo.toml --bin bench_text
	oracle/prepare
	cd oracle && cargo run --release --offline --quiet --bin bench_read
	cd oracle && cargo run --release --offline --quiet --bin bench_build
	cd oracle && cargo run --release --offline --quiet --bin bench_edit
	cd oracle && cargo run --release --offline --quiet --bin bench_same
	cd oracle && cargo run --release --offline --quiet --bin bench_print

# The comparison with the Rust for longer: make differential SECONDS=600 SEED=7
SECONDS = 300
SEED = 1
differential: target/staticlib/librook_row.a target/staticlib/librook_probe.a
	oracle/prepare
	cd oracle && cargo run --release --offline --quiet --bin differential -- --seconds $(SECONDS) --seed $(SEED)

# The library as shipped against the model, on slices that end at unreadable pages: make attack CALLS=50000000 SEED=7
# Then the text check on every sequence of up to four bytes, the faults that must be found, and a sample under valgrind.
CALLS = 10000000
attack: target/staticlib/librook_row.a target/staticlib/librook_probe.a
	oracle/prepare
	cd oracle && cargo build --release --offline --quiet --bin attack
	oracle/target/release/attack --calls $(CALLS) --seed $(SEED)
	oracle/target/release/attack --calls 2000000 --seed $(SEED) --front
	cargo run --release --offline --quiet --manifest-path native/Cargo.toml --bin every_text
	oracle/target/release/attack --calls 1000000 --faults
	if command -v valgrind >/dev/null; \
	then valgrind -q --error-exitcode=9 oracle/target/release/attack --calls 20000 --seed $(SEED) --blocks; \
	else echo 'attack: NOT RUN under valgrind, which is not installed'; fi

clean:
	rm -rf target native/target oracle/target bindings/rust/target

# An archive or a program is made again where a crate that it is made of changed.
archives = target/staticlib/librook_row.a target/staticlib/librook_probe.a
target/staticlib/librook_row.a: $(shell tools/archive --sources rook_row)
target/staticlib/librook_probe.a: $(shell tools/archive --sources rook_probe)
$(archives): target/staticlib/lib%.a:
	tools/archive $*
target/bin/occupations: $(shell tools/archive --sources occupations)
	tools/archive occupations
