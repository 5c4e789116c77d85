.PHONY: run build install test demo programs bench conformance mutants fuzz

# A box on loopback, proved and built first, with three commands to try.
run:
	host/run

# The program over the proved library, proved first where that is not there yet.
build:
	host/build

# What was built: program, library, header, pkg-config file, man page and service unit, under PREFIX (/usr/local) and DESTDIR.
install:
	PREFIX='$(PREFIX)' DESTDIR='$(DESTDIR)' host/install

# What takes seconds first; then the toolchain's gate and what is built of what it proved. The gate's line is the last.
test:
	tests/house
	tests/expected
	tests/gate

# Half an hour at a foundry in a few seconds, by docs/SITES.md: timers of old and new firmware, a tablet and the office.
demo:
	host/build
	host/demo

# The programs, proved first: a day at a site, and the outside vectors, with a line for each saying what was compared.
programs:
	tests/compare.py program_site "conformance/model.py, from document 01"
	tests/compare.py program_fields "protoc's bytes and lines worked out by tests/fields.py"
	tests/compare.py program_writers "protoc's bytes"
	tests/compare.py program_store "tests/store_expected.py, from the table of blocks"
	tests/compare.py program_rescue "tests/rescue.py, from the table of blocks and change request 6"
	tests/compare.py program_readings "tests/readings.py, with exact fractions"
	tests/compare.py program_permission "docs/VERDICTS.md"
	mkdir -p target
	cd crates/program_signature && rt run >../../target/signature_vectors.txt
	tests/signature_vectors.py --compare target/signature_vectors.txt

bench:
	bench/run

# The library against document 01's model: its tables, and N random calls from SEED (conformance/README.md).
N = 12000
SEED = 1
conformance:
	conformance/library.sh
	conformance/run.py --calls $(N) --seed $(SEED)

# Wrong boxes that the kit must catch.
mutants:
	conformance/mutants.py

# T=600 make fuzz takes ten minutes instead of one.
fuzz:
	fuzz/run.sh
