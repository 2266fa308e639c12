# Proves and builds the program, and runs it on its built-in product.
demo: target/bin/cphd
	target/bin/cphd demo

target/bin/cphd: $(shell find crates -type f -not -path '*/must-fail/*' -not -path '*/out/*')
	cd crates/cphd && rt run -- help >/dev/null
	mkdir -p target/bin
	cp crates/cphd/out/cphd $@

# The gate: everything is proved from nothing, each planted bug is refused, the programs run; then the program's statuses.
test:
	bash .ci/run

# The C programs: the benchmark, and the comparison with another XML reader. They need a C compiler and, of Debian, the package
# libexpat1-dev, and the benchmark libxml2-dev too. Nothing is installed here.
CC = gcc
CFLAGS = -std=c99 -O2 -Wall -Wextra -Iinclude
SANITIZERS = -g -fsanitize=address,undefined -fno-sanitize-recover=all
LIBRARY = target/staticlib/libcapi.a

# Times the reader beside expat and libxml2. `make bench BLOCK=FILE` takes an XML block of your own for the small text.
bench: target/bin/bench
	target/bin/bench $(BLOCK)

# Compares the reader with expat on generated texts.
host-test: target/bin/xml_expat
	target/bin/xml_expat

$(LIBRARY): $(shell find crates/capi crates/xml crates/classes crates/shelf -type f -not -path '*/must-fail/*' -not -path '*/out/*')
	cd crates/capi && rt lib
	mkdir -p target/staticlib
	cp crates/capi/out/libcapi.a $@

target/bin/bench: bench/bench.c include/cphd.h $(LIBRARY) | have-expat have-libxml2
	mkdir -p target/bin
	$(CC) $(CFLAGS) $$(xml2-config --cflags) -o $@ bench/bench.c $(LIBRARY) -lexpat $$(xml2-config --libs)

target/bin/xml_expat: tests/host/xml_expat.c include/cphd.h $(LIBRARY) | have-expat
	mkdir -p target/bin
	$(CC) $(CFLAGS) $(SANITIZERS) -o $@ tests/host/xml_expat.c $(LIBRARY) -lexpat

# Each says what is missing, where it is.
have-expat:
	@echo '#include <expat.h>' | $(CC) -E -x c - >/dev/null 2>&1 || { echo 'needs the package libexpat1-dev'; exit 1; }

have-libxml2:
	@xml2-config --version >/dev/null 2>&1 || { echo 'needs the package libxml2-dev'; exit 1; }

.PHONY: demo test bench host-test have-expat have-libxml2
