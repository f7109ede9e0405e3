#!/usr/bin/env bash
# Every test. `rt ci` comes first: it takes the checkout as it stands, and trusts nothing that earlier commands made
# there. Its verdict, the last line it prints, is printed again at the end, once all the other parts have passed.
set -euo pipefail
cd "$(dirname "$0")/.."
log=$(mktemp)
trap 'rm -f "$log"' EXIT

# Debian packages that the parts below need, where the machine has not got them.
missing=()
command -v gcc >/dev/null || missing+=(gcc libc6-dev)
command -v cargo >/dev/null || missing+=(cargo)
command -v python3 >/dev/null || missing+=(python3)
command -v pkg-config >/dev/null || missing+=(pkg-config)
if [ ${#missing[@]} -gt 0 ]; then
    apt-get update
    apt-get install -y --no-install-recommends "${missing[@]}"
fi

tests/believed.py
rt ci | tee "$log"
# An edit that cannot be applied or read fails nothing there, and shows nothing.
if grep -E '^rt: ok.*, [1-9][0-9]* bad' "$log" >/dev/null; then
    echo "run: some must-fail edits are bad, as told above: mend them" >&2
    exit 1
fi
# The program and the library, over what rt check keeps: rt ci keeps its own proofs apart, and builds no library.
make --no-print-directory program lib
tests/examples.sh
tests/install.sh
docs/figures/draw.py --check
# The tool for towns, and the documents: what they say of the engine, then every command that they show.
tests/tool.py
tests/page.py
tests/format.py
tests/why.py
tests/exercises.py --gate
tests/documents.py
cargo build --quiet --release --offline --manifest-path tests/independent/Cargo.toml
tests/independent/target/release/independent target/bin/nearby
tail -n 1 "$log"
