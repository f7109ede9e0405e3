#!/bin/sh
# Installs what is missing, compiles the benchmark, runs it and writes docs/BENCHMARK.md. Started by `make bench`, which
# makes target/lib/libnearby.a first.
set -eu
cd "$(dirname "$0")/.."
out=target/bench
mkdir -p "$out"

missing=
need() { [ -e "$1" ] || missing="$missing $2"; }
need /usr/include/nanoflann.hpp libnanoflann-dev
need /usr/include/boost/geometry.hpp libboost-dev
command -v g++ >/dev/null || missing="$missing g++"
command -v nm >/dev/null || missing="$missing binutils"
command -v python3 >/dev/null || missing="$missing python3"
if [ -n "$missing" ]; then
    echo "installing$missing"
    as_root=
    [ "$(id -u)" = 0 ] || as_root=sudo
    install() { $as_root apt-get install -y --no-install-recommends $missing >"$out/apt.log" 2>&1; }
    install || { $as_root apt-get update >"$out/apt.log" 2>&1 && install; } || { cat "$out/apt.log"; exit 1; }
fi

# The same target as the proved library's: x86-64-v2.
flags='-O3 -march=x86-64-v2 -Wall -Wextra -Werror'
objects=
for f in bench/*.cpp; do
    o="$out/$(basename "$f").o"
    if [ ! -e "$o" ] || [ -n "$(find bench -name '*.[hc]*' -newer "$o")" ]; then
        g++ -std=c++17 $flags -DBOOST_ALLOW_DEPRECATED_HEADERS -c "$f" -o "$o"
    fi
    objects="$objects $o"
done
for name in checks levels; do
    gcc -std=c11 $flags -c "bench/$name.c" -o "$out/$name.c.o"
    objects="$objects $out/$name.c.o"
done
g++ $objects target/lib/libnearby.a -o "$out/bench" -pthread

nm -u target/lib/libnearby.a 2>/dev/null | sed -n 's/^ *U //p' | sort -u >"$out/undefined"
objdump -d target/lib/libnearby.a | grep -cw -e syscall -e sysenter -e int >"$out/syscalls" || true
"$out/bench" "$out/results.tsv"
python3 bench/report.py "$out" "$flags"
