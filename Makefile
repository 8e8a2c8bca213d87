# make run                a small match in four arenas: the library, IntervalBitSet and a late player deal the same slots, frame by frame
# make test               every test; the last line is 'N passed, M failed'
# make lib                prove the library and write target/lib/libvizturel.a and target/include/vizturel.h
# make prove              prove every crate that has changed, and run every program
# make listset            prove and build the program listset, crates/listset/out/listset
# make replay             prove and build the program replay, crates/replay/out/replay
# make host               build the Rust host over the proved archive and run its tests
# make differential       the library against IntervalBitSet: exhaustive, damaged and random calls (under a minute)
# make differential-long  the same with thirty million random calls, and the seed SEED=S (default 2)
# make conformance        write the lists of conformance/ anew, with the answers of IntervalBitSet
# make pack-mutants       some two thousand wrong builds of a plain reader of the lists, and which of them the lists catch (many minutes)
# make bench              every benchmark, against IntervalBitSet and plain readings of the same words (docs/BENCHMARKS.md)
# make bench-gaps         how long the gap search takes, against a plain Rust loop (docs/BENCHMARKS.md)
# make bench-maps         how long maps take by words and by single bytes, against plain Rust loops (docs/BENCHMARKS.md)
# make bench-editions     how long written sets take by columns and by rows, and the converter against a plain Rust loop (docs/BENCHMARKS.md)
# make bench-mending      how long mending takes, against IntervalBitSet's sets of the same runs, and against a load (docs/BENCHMARKS.md)
# make bench-grid         how long rectangles of cells and surveys take, against plain Rust over IntervalBitSet (docs/BENCHMARKS.md)
# make bench-why          how long it takes to tell why a list of ranges is refused, against plain Rust over IntervalBitSet (docs/BENCHMARKS.md)
# make bench-heights      how long the lists for heights take, and how much stack each exported call uses on the trees that they make (docs/BENCHMARKS.md)
# make bench-aged         how long the soundness check and frames take on stores that have lived, against new ones (docs/BENCHMARKS.md)
# make bench-soundness    how long the soundness check takes, against readings of the same words (docs/BENCHMARKS.md)
# make bench-growth       how many instructions it takes, at four capacities (needs valgrind)
# make bench-aged-calls   how many instructions a frame takes on such stores, and the soundness check in it (needs valgrind)
# make bench-calls        how many instructions a call takes in a frame, and the soundness check with one world and sixteen (needs valgrind)
# make bench-singles      how many instructions a single call takes, its soundness check with it (needs valgrind)
.PHONY: run test lib prove listset replay host differential differential-long conformance pack-mutants bench bench-store bench-gaps bench-maps bench-editions bench-mending bench-grid bench-why bench-heights bench-aged bench-aged-calls bench-soundness bench-growth bench-calls bench-singles
ARCHIVE := target/lib/libvizturel.a
HEADER := target/include/vizturel.h
BENCH_STORE := target/lib/libbench_store.a
PROGRAMS := crates/listset/out/listset crates/replay/out/replay
SOURCES := crates.txt $(shell find crates -name out -prune -o \( -name '*.rt' -o -name '*.antt' \) -print)
SEED ?= 2
run: $(ARCHIVE)
	@cargo run --quiet --offline --release --manifest-path host/Cargo.toml --bin play
test:
	@bash tests/run
lib: $(ARCHIVE) $(HEADER)
	@echo "$(ARCHIVE) (x86-64 Linux) and $(HEADER) are there"
prove:
	rt all test
listset: crates/listset/out/listset
replay: crates/replay/out/replay
# The program is there after `rt ci` too. `rt run` builds one only if all of it is proved, and runs it; where it had nothing to do, the file gets
# the time of now, so that it is not asked again.
$(PROGRAMS): $(SOURCES)
	@mkdir -p target
	@cd crates/$(@F) && rt run < stdin > ../../target/$(@F).out 2> ../../target/$(@F).log || { cat ../../target/$(@F).log; exit 1; }
	@touch $@
# An archive as it is shipped. The compiler puts in memcpy where a large value is moved, and memmove where the places may overlap. memmove does for both, so of
# the two an archive asks for memmove alone.
ship = if command -v objcopy > /dev/null; then objcopy --redefine-sym memcpy=memmove $(1) $@; else cp $(1) $@ && echo "without objcopy (of binutils) $@ asks for memcpy too"; fi
# Side by side where crates do not stand on each other. The archive is written only if everything in it is proved.
$(ARCHIVE): $(SOURCES)
	@mkdir -p target/lib
	@echo "proving the library: some minutes from nothing, up to a minute where its crates have been proved"
	@python3 tools/prove.py exports
	@$(call ship,crates/exports/out/libexports.a)
$(HEADER): include/vizturel.h
	@mkdir -p target/include
	@cp $< $@
host: $(ARCHIVE)
	cargo build --offline --release --manifest-path host/Cargo.toml
	cargo test --offline --manifest-path host/Cargo.toml
differential: $(ARCHIVE)
	cargo run --offline --release --manifest-path host/Cargo.toml --bin differential
differential-long: $(ARCHIVE)
	cargo run --offline --release --manifest-path host/Cargo.toml --bin differential -- --calls 30000000 --seed $(SEED)
# No answer is the library's, but the crate that has the oracle links it.
conformance: $(ARCHIVE)
	cargo run --offline --release --manifest-path host/Cargo.toml --bin conformance -- conformance
pack-mutants:
	python3 tests/second/mutants.py
bench: $(ARCHIVE) bench-store
	cargo run --offline --profile fast --features bench_store --manifest-path host/Cargo.toml --bin bench -- docs/benchmarks.svg
	@$(MAKE) --no-print-directory bench-soundness
bench-store: $(BENCH_STORE)
$(BENCH_STORE): $(SOURCES)
	@mkdir -p target/lib
	@(cd crates/bench_store && rt lib) > target/bench-store.log 2>&1 || { cat target/bench-store.log; exit 1; }
	@cp crates/bench_store/out/libbench_store.a $@
bench-gaps: $(ARCHIVE) bench-store
	cargo run --offline --profile fast --features bench_store --manifest-path host/Cargo.toml --bin bench -- gaps
bench-maps: $(ARCHIVE)
	cargo run --offline --profile fast --manifest-path host/Cargo.toml --bin bench -- maps
bench-editions: $(ARCHIVE)
	cargo run --offline --profile fast --manifest-path host/Cargo.toml --bin bench -- editions
bench-mending: $(ARCHIVE)
	cargo run --offline --profile fast --manifest-path host/Cargo.toml --bin bench -- mending
bench-grid: $(ARCHIVE)
	cargo run --offline --profile fast --manifest-path host/Cargo.toml --bin bench -- grid
bench-why: $(ARCHIVE)
	cargo run --offline --profile fast --manifest-path host/Cargo.toml --bin bench -- why
bench-heights: $(ARCHIVE)
	cargo run --offline --profile fast --manifest-path host/Cargo.toml --bin bench -- heights
bench-aged: $(ARCHIVE)
	cargo run --offline --profile fast --manifest-path host/Cargo.toml --bin bench -- aged
# AGED_ARCHIVE=path counts those of another archive.
AGED_ARCHIVE ?= $(ARCHIVE)
bench-aged-calls: $(AGED_ARCHIVE)
	gcc -O2 -Wall -Wextra -Iinclude -o target/bench-aged bench/aged.c $(AGED_ARCHIVE)
	@count() { valgrind --tool=callgrind --callgrind-out-file=/dev/null --toggle-collect=measured target/bench-aged "$$@" 2>&1 | awk '/Collected/ { print $$NF }'; }; \
	echo "| store, C | a frame without calls | a frame of ten |"; echo "|---|---|---|"; \
	for store in new grown tenth emptied; do \
	    for c in 1100 8192 65536; do \
	        echo "| $$store, $$c | $$(count $$c $$store 0) | $$(count $$c $$store 10) |"; \
	    done; \
	done
bench-soundness: bench-store
	rustc --edition 2021 -C opt-level=3 -L native=target/lib -l static=bench_store -o target/bench-soundness bench/soundness.rs
	target/bench-soundness
bench-growth: bench-store
	gcc -O2 -Wall -Wextra -o target/bench-growth bench/growth.c $(BENCH_STORE)
	@for c in 1024 2048 8192 65536; do \
	    valgrind --tool=callgrind --callgrind-out-file=/dev/null --toggle-collect=vizturel_bench_is_sound target/bench-growth $$c 2>&1 \
	        | awk -v c=$$c '/Collected/ { printf "| %d | %d | %.1f |\n", c, $$NF, $$NF / c }'; \
	done
bench-calls: $(ARCHIVE)
	gcc -O2 -Wall -Wextra -Iinclude -o target/bench-calls bench/calls.c $(ARCHIVE)
	@count() { valgrind --tool=callgrind --callgrind-out-file=/dev/null --toggle-collect=vizturel_abi_frame target/bench-calls "$$@" 2>&1 | awk '/Collected/ { print $$NF }'; }; \
	none=$$(count set 1100 1000 0 1); \
	for kind in set flip shift get find tally select run_at; do \
	    echo "$$kind $$(count $$kind 1100 1000 1000 1) $$none" | awk '{ printf "| %s | %.1f |\n", $$1, ($$2 - $$3) / 1000 }'; \
	done; \
	for c in 128 1100 11000; do \
	    runs=$$((c == 128 ? 100 : c * 10 / 11)); \
	    echo "| C = $$c | $$(count set $$c $$runs 0 1) with one world | $$(count set $$c $$runs 0 16) with sixteen |"; \
	done
bench-singles: $(ARCHIVE)
	gcc -O2 -Wall -Wextra -Iinclude -o target/bench-singles bench/singles.c $(ARCHIVE)
	@for kind in get run_at find tally select gap draw_front fill count_rect eq set flip shift set_rect combine not shifted build load mend read_map write write_map deepest; do \
	    for pool in "16 10" "1100 1000"; do \
	        valgrind --tool=callgrind --callgrind-out-file=/dev/null --toggle-collect=asked target/bench-singles $$kind $$pool 2>&1 | awk '/Collected/ { printf "%.0f ", $$NF / 100 }'; \
	    done | awk -v kind=$$kind '{ printf "| %s | %s | %s |\n", kind, $$1, $$2 }'; \
	done
