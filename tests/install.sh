#!/usr/bin/env bash
# Installs into a temporary tree, builds the sound host of examples/ against it as pkg-config says, with the shared and
# the static library, runs it and the program, and takes everything away again. It also looks at what the compiled
# library asks for and holds. It needs the libraries and the program: `make lib`, `make run`.
set -euo pipefail
cd "$(dirname "$0")/.."
unset MAKEFLAGS MFLAGS MAKELEVEL DESTDIR NEARBY_LIB LD_LIBRARY_PATH PKG_CONFIG_PATH
work=$(mktemp -d)
trap 'rm -rf "$work"' EXIT
failed() {
    echo "install: $*" >&2
    exit 1
}
# as_expected NAME COMMAND..: whether a command prints the file NAME
as_expected() {
    local expected=$1
    shift
    diff <("$@" 2>&1 || echo "status $?") "$expected" >&2 || failed "$* does not print $expected"
}
# Everything below a folder: folders, files with their sums, links with what they point to.
listing() { (cd "$1" && find . -type d -print -o -type l -printf '%p -> %l\n' -o -exec sha256sum {} + | sort); }

# A tree where others have installed, too.
tree=$work/tree
mkdir -p "$tree"/{bin,include,lib/pkgconfig}
for other in bin/near include/near.h lib/libnear.a lib/libnear.so.1 lib/pkgconfig/near.pc; do
    echo another >"$tree/$other"
done
listing "$tree" >"$work/before"

# With rt out of reach nothing can be proved anew.
mkdir "$work/no-rt"
printf '#!/bin/sh\necho "install: make install calls rt" >&2\nexit 1\n' >"$work/no-rt/rt"
chmod +x "$work/no-rt/rt"
make_without_rt() { PATH=$work/no-rt:$PATH make --no-print-directory "$@"; }
make_without_rt install PREFIX="$tree"

# What the header says of every call: nothing is allocated, no pointer kept, and calls may run at the same time. The
# library asks for memset only, makes no system call, and has no data that can be written.
archive=$tree/lib/libnearby.a
undefined=$(nm -u "$archive" | sed -n 's/^ *U //p' | sort -u | xargs)
[ "$undefined" = memset ] || failed "libnearby.a asks for $undefined"
! objdump -d "$archive" | grep -w -e syscall -e sysenter -e int >&2 || failed "libnearby.a makes a system call"
writable=$(objdump -h "$archive" | grep -A1 -E '^ +[0-9]+ ' | grep -w ALLOC | grep -vw READONLY || true)
[ -z "$writable" ] || failed "libnearby.a has data that can be written"
# Nor can it use more and more stack: no function calls itself, or one that leads back to it.
objdump -d -r --no-show-raw-insn "$archive" | python3 -c '
import re, sys
calls, at = {}, None
for line in sys.stdin:
    head = re.match(r"[0-9a-f]+ <(.+)>:$", line)
    if head:
        at = head.group(1)
        calls.setdefault(at, set())
    # A call within the section names the function that it starts at; any other has a relocation behind it.
    for word in re.findall(r"call +[0-9a-f]+ <([^+]+)>$|R_X86_64_PLT32\s+(.+?)(?:[-+]0x[0-9a-f]+)?$", line.rstrip()):
        calls[at].add(word[0] or word[1])
while True:
    leaves = [f for f in calls if not calls[f] & set(calls)]
    if not leaves:
        break
    for f in leaves:
        del calls[f]
if calls:
    sys.exit("these call each other round and round: " + ", ".join(sorted(calls)))' ||
    failed "a function of libnearby.a can call itself"
exported=$(nm -D --defined-only "$tree/lib/libnearby.so" | sed 's/.* //' | sort | xargs)
expected="nearby_block_check nearby_join nearby_join3 nearby_level nearby_margin nearby_margin3 nearby_prune"
expected="$expected nearby_prune3 nearby_stream_order nearby_stream_order3 nearby_validate nearby_write nearby_write3"
[ "$exported" = "$expected" ] || failed "libnearby.so exports $exported"
asked_for=$(nm -D --undefined-only "$tree/lib/libnearby.so" | sed 's/.* //; s/@.*//' | sort | xargs)
[ "$asked_for" = memset ] || failed "libnearby.so asks for $asked_for"
readelf -d "$tree/lib/libnearby.so" | grep 'SONAME.*\[libnearby\.so\.1\]' >/dev/null ||
    failed "libnearby.so has another soname"

export PKG_CONFIG_PATH=$tree/lib/pkgconfig
pkg-config --exact-version="$(make -s --no-print-directory version)" nearby || failed "nearby.pc has another version"
warnings="-std=c11 -O2 -Wall -Wextra -Werror"
gcc $warnings examples/host.c $(pkg-config --cflags --libs nearby) -o "$work/shared"
gcc $warnings -static examples/host.c $(pkg-config --static --cflags --libs nearby) -o "$work/static"
readelf -d "$work/shared" | grep 'NEEDED.*\[libnearby\.so\.1\]' >/dev/null || failed "the shared library is not linked"
! readelf -d "$work/static" | grep 'NEEDED' >&2 || failed "the static library is not linked"
as_expected samples/riverside.host env LD_LIBRARY_PATH="$tree/lib" "$work/shared" samples/riverside.town
as_expected samples/riverside.host "$work/static" samples/riverside.town

python3 examples/ask.py samples/riverside.town 3 1200,3000 2600,3100 4100,3200 5600,3200 >"$work/question"
as_expected samples/riverside.answer "$tree/bin/nearby" <"$work/question"
if [ -e tools/town ]; then
    # The tool finds its modules and the library where they are installed.
    tools/town show samples/riverside.town >"$work/shown"
    as_expected "$work/shown" "$tree/bin/nearby-town" show samples/riverside.town
fi

make_without_rt uninstall PREFIX="$tree"
diff "$work/before" <(listing "$tree") >&2 || failed "make uninstall does not leave the tree as it was"

# As packages are made: below DESTDIR, for another PREFIX.
make_without_rt install DESTDIR="$work/package" PREFIX=/opt/sound
grep -qx 'prefix=/opt/sound' "$work/package/opt/sound/lib/pkgconfig/nearby.pc" || failed "nearby.pc has another prefix"
make_without_rt uninstall DESTDIR="$work/package" PREFIX=/opt/sound
[ -z "$(find "$work/package" ! -type d)" ] || failed "make uninstall leaves $(find "$work/package" ! -type d)"
! make_without_rt install PREFIX=here 2>/dev/null || failed "a PREFIX that is not a whole path is taken"
echo "install: host built with the shared and the static library, run and compared; uninstalled, nothing left"
