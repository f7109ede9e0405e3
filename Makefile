# make run: the program on a sample town. make lib: the library for hosts in C. make install and make uninstall: both,
# in the folders below PREFIX. make test: everything; its last line is the verdict of `rt ci`. make bench: the
# benchmark, which writes docs/BENCHMARK.md.
PREFIX = /usr/local
DESTDIR =
VERSION = 1.0.0
CC = gcc

.PHONY: run lib program archive libraries install uninstall version test bench

run:
	@echo "proving and building the program; the first time takes some minutes"
	@$(MAKE) --silent --no-print-directory program
	python3 examples/ask.py samples/riverside.town 3 1200,3000 2600,3100 4100,3200 5600,3200 | target/bin/nearby

# target/class is where the commands of the documents put their files.
lib:
	@mkdir -p target/class
	@$(MAKE) --silent --no-print-directory archive
	@$(MAKE) --silent --no-print-directory libraries
	@echo "target/lib/libnearby.a and target/lib/libnearby.so, with include/nearby.h"

# rt knows itself what has to be proved again, and leaves what it made in out/ of the crate's folder. `rt ci` clears
# that folder, so the program and the library are copied to target/. `rt run` also runs the program, here on no input.
program:
	@mkdir -p target/bin
	@(cd crates/nearby && rt run </dev/null) >target/run.log 2>&1 || { cat target/run.log; exit 1; }
	@install -m 755 crates/nearby/out/nearby target/bin/nearby

archive:
	@mkdir -p target/lib
	@(cd crates/host && rt lib) >target/lib.log 2>&1 || { cat target/lib.log; exit 1; }
	@install -m 644 crates/host/out/libhost.a target/lib/libnearby.a

libraries: target/lib/libnearby.a target/lib/libnearby.so

# The linker refuses a symbol that neither the archive nor the C library has.
target/lib/libnearby.so.1: target/lib/libnearby.a
	@$(CC) -shared -nostartfiles -Wl,-soname,libnearby.so.1 -Wl,-z,defs -Wl,-z,relro,-z,now \
	    -Wl,--whole-archive $< -Wl,--no-whole-archive -o $@

target/lib/libnearby.so: target/lib/libnearby.so.1
	@ln -sf libnearby.so.1 $@

# Only where they are missing: make install takes what was built last, and proves nothing anew.
target/lib/libnearby.a:
	@$(MAKE) --silent --no-print-directory archive

target/bin/nearby:
	@$(MAKE) --silent --no-print-directory program

# The tool for towns is a script and its modules: they go to lib/nearby, and bin/nearby-town is a link to the script.
tree = $(DESTDIR)$(PREFIX)
installed = include/nearby.h lib/libnearby.a lib/libnearby.so.1 lib/libnearby.so lib/pkgconfig/nearby.pc lib/nearby \
    bin/nearby bin/nearby-town
prefix_is_whole = case "$(PREFIX)" in /?*) ;; *) echo "PREFIX has to be a whole path, /.." >&2; exit 1;; esac

install: libraries target/bin/nearby
	@$(prefix_is_whole)
	@install -d "$(tree)/include" "$(tree)/lib/pkgconfig" "$(tree)/bin"
	@install -m 644 include/nearby.h "$(tree)/include/nearby.h"
	@install -m 644 target/lib/libnearby.a target/lib/libnearby.so.1 "$(tree)/lib"
	@ln -sf libnearby.so.1 "$(tree)/lib/libnearby.so"
	@printf '%s\n' 'prefix=$(PREFIX)' 'libdir=$${prefix}/lib' 'includedir=$${prefix}/include' '' 'Name: nearby' \
	    'Description: the k nearest sound sites of each stop of a tram track' 'Version: $(VERSION)' \
	    'Libs: -L$${libdir} -lnearby' 'Cflags: -I$${includedir}' >"$(tree)/lib/pkgconfig/nearby.pc"
	@install -m 755 target/bin/nearby "$(tree)/bin/nearby"
	@set -e; if [ -e tools/town ]; then \
	    (cd tools && find town towns -type f ! -name '*.pyc') | \
	        while read -r file; do install -D -m 644 "tools/$$file" "$(tree)/lib/nearby/$$file" || exit 1; done; \
	    chmod 755 "$(tree)/lib/nearby/town"; \
	    ln -sf ../lib/nearby/town "$(tree)/bin/nearby-town"; \
	fi

uninstall:
	@$(prefix_is_whole)
	@for each in $(installed); do rm -rf "$(tree)/$$each" || exit 1; done

version:
	@echo $(VERSION)

test:
	@tests/run.sh

bench: lib
	@bench/run.sh
