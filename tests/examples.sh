#!/usr/bin/env bash
# Builds the C programs of examples/ with every warning an error, runs them and the program on the samples, and compares
# all that they print.
set -euo pipefail
cd "$(dirname "$0")/.."
built=target/examples
mkdir -p "$built"
for name in town host viaduct mixer stream; do
    gcc -std=c11 -O2 -Wall -Wextra -Werror -Iinclude "examples/$name.c" target/lib/libnearby.a -o "$built/$name"
done
gcc -std=c11 -O2 -Wall -Wextra -Werror examples/reader.c -o "$built/reader"

runs=0
# compare EXPECTED_FILE COMMAND..: what a command prints, errors too
compare() {
    local expected=$1
    shift
    if ! diff <("$@" 2>&1 || echo "status $?") "$expected" >&2; then
        echo "examples: $* does not print $expected" >&2
        exit 1
    fi
    runs=$((runs + 1))
}
text_to_town() { "$built/town" <"$1"; }
lines_to_town() { printf "$1" | "$built/town"; }
ask() { python3 examples/ask.py "$@" | target/bin/nearby; }

compare samples/riverside.town text_to_town samples/riverside.txt
compare samples/riverside.host "$built/host" samples/riverside.town
compare samples/riverside.answer ask samples/riverside.town 3 1200,3000 2600,3100 4100,3200 5600,3200

# The mixer, with the least reach and the greatest too: all places are silent, and all are as loud as can be printed.
compare samples/riverside.levels "$built/mixer" samples/riverside.town 100
compare <(sed -E 's/at [0-9.]+/silent/g' samples/riverside.levels) "$built/mixer" samples/riverside.town 1
compare <(sed -E 's/at [0-9.]+|silent/at 1.0000/g' samples/riverside.levels) \
    "$built/mixer" samples/riverside.town 1000000
# A reach is refused before the file is looked at. What is no decimal number of 32 bits does not get so far.
for reach in 0 1000001 4294967295; do
    for file in samples/riverside.town samples/viaduct.town /dev/null; do
        compare <(printf '%s\n' "refused 18: a reach is 1 to 1000000 centimetres" "status 2") \
            "$built/mixer" "$file" "$reach"
    done
done
for reach in "" x 100x x100 -100 +100 " 100" 1e2 0x64 100.0 4294967296 18446744073709551716; do
    compare <(printf '%s\n' "mixer FILE REACH, a whole number of centimetres" "status 1") \
        "$built/mixer" samples/riverside.town "$reach"
done
compare <(printf '%s\n' "refused 17: a town with height, and the points have none" "status 2") \
    "$built/mixer" samples/viaduct.town 100

# The field unit, for the box around the stops above, at one of them, and in a corner of all that there is.
stream() { "$built/stream" samples/riverside.town "$@"; }
compare samples/riverside.order stream 1200 5600 3000 3200
compare <(printf '%s\n' "tiles 24" "order 6 7 12 13 14 18 19 0 1 8 15 20 2 3 9 16 21 4 10 17 22 5 11 23") \
    stream 1200 1200 3000 3000
compare <(printf '%s\n' "tiles 24" "order $(seq -s ' ' 0 23)") stream -1000000 1000000 -1000000 1000000
# Tiles without sites are listed, too. Of a chain the nearest comes first; boxes that touch come by their numbers.
lines_to_town 'tile 30 0 30 0\ntile 20 0 20 0\ntile 10 0 10 0\nsite 10 0 0\ntile 0 0 0 0\n' >"$built/chain.town"
lines_to_town 'tile 10 0 20 0\ntile 0 0 10 0\nsite 0 0 1\n' >"$built/touching.town"
lines_to_town 'tile 11 0 20 0\ntile 0 0 10 0\nsite 0 0 1\n' >"$built/apart.town"
compare <(printf '%s\n' "tiles 4" "order 3 2 1 0") "$built/stream" "$built/chain.town" 0 0 0 0
compare <(printf '%s\n' "tiles 2" "order 0 1") "$built/stream" "$built/touching.town" 0 0 0 0
compare <(printf '%s\n' "tiles 2" "order 1 0") "$built/stream" "$built/apart.town" 0 0 0 0
# A box that is bad: a low end above its high end, or beyond the limits. The test of the axes comes before.
bad_boxes=("1 0 0 0" "0 0 1 0" "-1000001 0 0 0" "0 1000001 0 0" "0 0 -1000001 0" "0 0 0 1000001" "-2147483648 0 0 0")
for box in "${bad_boxes[@]}"; do
    compare <(printf '%s\n' "refused 9 block 0" "status 1") stream $box
    compare <(printf '%s\n' "refused 17 block 0" "status 1") "$built/stream" samples/viaduct.town $box
done
compare <(printf '%s\n' "refused 17 block 0" "status 1") "$built/stream" samples/viaduct.town 0 0 0 0
# What is no whole number of 32 bits, and too many or too few of them, does not get so far; nor does a missing file.
for box in "" "0 0 0" "0 0 0 0 0" "0 0 0 x" "0 0 0 -" "0 0 +1 1" "0 0x1 0 0" "0 0.5 0 0" "0 2147483648 0 0" \
    "-2147483649 0 0 0" "0 0 0 99999999999999999999"; do
    compare <(printf '%s\n' "stream FILE X0 X1 Y0 Y1, whole numbers of centimetres" "status 1") stream $box
done
compare <(printf '%s\n' "$built/none.town: No such file or directory" "status 1") \
    "$built/stream" "$built/none.town" 0 0 0 0
compare <(printf '%s\n' "$built: Is a directory" "status 1") "$built/stream" "$built" 0 0 0 0

# A town with height: by its text, and by the program that has it. The reader gives back a text without its comments.
compare samples/viaduct.town text_to_town samples/viaduct.txt
compare samples/viaduct.answer "$built/viaduct" "$built/viaduct.town"
compare samples/viaduct.town cat "$built/viaduct.town"
town_to_text() { "$built/reader" <"samples/$1.town"; }
for name in riverside crossing viaduct; do
    compare <(sed 's/ *#.*//; /^$/d' "samples/$name.txt") town_to_text "$name"
done
# It is asked with stops of two axes: by the program, and by the host. The tests of a question come in their order.
compare <(echo "refused 17 block 0") ask samples/viaduct.town 3 3000,3020
compare <(echo "refused 17 block 0") ask samples/viaduct.town 3 3000,1000001
compare <(echo "refused 11 block 0") ask samples/viaduct.town 65 3000,3020
compare <(echo "refused 12 block 0") ask samples/viaduct.town 3
compare <(printf '%s\n' "blocks 13 bad 0" "full check: number 0 block 0 tiles 12" \
    "margin -21000000: the crossing is nearer" "refused 17: a town with height, and the stops have none" "status 2") \
    "$built/host" samples/viaduct.town

# A line may end in CR LF, and the last one may have no end.
with_cr() { sed 's/$/\r/' samples/riverside.txt | "$built/town"; }
without_end() { printf %s "$(cat samples/riverside.txt)" | "$built/town"; }
compare samples/riverside.town with_cr
compare samples/riverside.town without_end
# Zeros in front, signs, tabs, and anything in a comment.
lines_to_town 'tile 0 0 1 1\nsite 1 0 7\n' >"$built/plain.town"
odd="\t tile -$(printf '%0200d' 0) +0\t \t1 01\t#\\0\r\f\xff# tile\r\n#\r\n \t\r\nsite 1 -0 +07 #"
compare "$built/plain.town" lines_to_town "$odd"

# A muted site, with cue 0, keeps its slot and takes no place; a tile that has no other is not opened.
line='tile 0 0 2 0\nsite 1 0 0\nsite 2 0 5\ntile 4 0 6 0\nsite 5 0 0\ntile 10 0 12 0\nsite 11 0 7\n'
lines_to_town "$line" >"$built/muted.town"
compare <(printf '%s\n' "tiles 3 opened 2 struck 0" "stop 0: 4 1 5; 121 80 7") ask "$built/muted.town" 3 0,0
lines_to_town 'tile 0 0 1 1\nsite 1 1 0\n' >"$built/silent.town"
compare <(printf '%s\n' "tiles 1 opened 0 struck 0" "stop 0:") ask "$built/silent.town" 2 0,0

# A standard input that cannot be read is no empty input.
read_folder() { target/bin/nearby </; }
compare <(echo "nearby: standard input cannot be read") read_folder
compare <(echo input) target/bin/nearby </dev/null

# Files and texts that are refused.
head -c 12799 samples/riverside.town >"$built/cut.town"
# A byte that was 0: to the check 1 is seen, 255 is not, since it counts modulo 255; the test of zeros sees that.
with_byte() { head -c 11000 samples/riverside.town; printf "$1"; tail -c +11002 samples/riverside.town; }
with_byte '\x01' >"$built/one.town"
with_byte '\xff' >"$built/255.town"
# recount FILE BLOCK BYTE NUMBER: the file with another number in two bytes of a block, whose check is made anew
recount() { python3 - "$@" <<'END'
import sys
name, (block, byte, number) = sys.argv[1], map(int, sys.argv[2:])
data = bytearray(open(name, "rb").read())
start = 512 * block
data[start + byte : start + byte + 2] = number.to_bytes(2, "little")
a = c = 0
for byte in data[start + 1 : start + 510]:
    a = (a + byte) % 255
    c = (c + a) % 255
data[start + 510 : start + 512] = bytes([a, c])
sys.stdout.buffer.write(data)
END
}
recount samples/riverside.town 12 4 9 >"$built/tile.town"
recount samples/riverside.town 0 4 23 >"$built/entries.town"
# Tile 20 is block 21. The cue of its slot 0 becomes 0; the muted number of its entry becomes 1, and 5 of 4 sites.
recount samples/riverside.town 21 24 0 >"$built/cue.town"
recount samples/riverside.town 0 434 1 >"$built/muted-1.town"
recount samples/riverside.town 0 434 5 >"$built/muted-5.town"
recount "$built/muted-1.town" 21 24 0 >"$built/both.town"
compare <(echo "refused 1 block 0") ask "$built/cut.town" 3 1200,3000
compare <(echo "refused 3 block 21") ask "$built/one.town" 3 2600,3100
compare <(echo "refused 8 block 21") ask "$built/255.town" 3 2600,3100
compare <(echo "refused 16 block 21") ask "$built/cue.town" 3 2600,3100
compare <(echo "refused 16 block 21") ask "$built/muted-1.town" 3 2600,3100
compare <(echo "refused 9 block 0") ask "$built/muted-5.town" 3 2600,3100
# A tile that is not opened is not tested. Where cue and muted number agree, the file is good, and site 800 is muted.
compare <(ask samples/riverside.town 3 1200,3000) ask "$built/cue.town" 3 1200,3000
compare <(printf '%s\n' "tiles 24 opened 3 struck 18" "stop 0: 13850 802 177; 58986 803 63; 162994 560 234") \
    ask "$built/both.town" 3 2600,3100
# says NUMBER BLOCK WHERE FILE [MORE]: what the sound host prints of a bad file, besides its lines for each block
host() { "$built/host" "$1" | grep -v '^block'; }
says() {
    compare <(printf '%s\n' "full check: number $1 block $2 tiles 0" \
        "refused $1, $3: copy the whole file again${5-}" "status 1") host "$4"
}
says 1 0 "the length" "$built/cut.town"
says 3 21 "block 21, tile 20" "$built/one.town"
says 8 21 "block 21, tile 20" "$built/255.town"
says 7 12 "block 12, tile 11" "$built/tile.town"
says 7 0 "block 0 of the directory" "$built/entries.town"
says 9 0 "block 0 of the directory" "$built/muted-5.town"
says 16 21 "block 21, tile 20" "$built/cue.town" ", or make it again from its town"
says 16 21 "block 21, tile 20" "$built/muted-1.town" ", or make it again from its town"
says 1 0 "the length" /dev/null
# The mixer says less.
bad_file() { compare <(printf '%s\n' "refused $1, block $2: the file is bad" "status 1") "$built/mixer" "$3" 100; }
bad_file 1 0 "$built/cut.town"
bad_file 3 21 "$built/one.town"
bad_file 7 0 "$built/entries.town"
bad_file 1 0 /dev/null
# The field unit reads the directory alone: it does not see what is wrong with a tile.
unit() { "$built/stream" "$1" 1200 5600 3000 3200; }
for file in one 255 tile cue; do
    compare samples/riverside.order unit "$built/$file.town"
done
compare samples/riverside.order unit "$built/muted-1.town"
compare <(printf '%s\n' "refused 1 block 0" "status 1") unit "$built/cut.town"
compare <(printf '%s\n' "refused 1 block 0" "status 1") unit /dev/null
compare <(printf '%s\n' "refused 7 block 0" "status 1") unit "$built/entries.town"
compare <(printf '%s\n' "refused 9 block 0" "status 1") unit "$built/muted-5.town"
# With 384 tiles the directory has 16 blocks.
printf 'tile 0 0 1 1 # %s\n' {1..384} | "$built/town" >"$built/384.town"
recount "$built/384.town" 12 4 23 >"$built/384-12.town"
recount "$built/384.town" 16 4 1 >"$built/384-16.town"
says 7 12 "block 12 of the directory" "$built/384-12.town"
compare <(printf '%s\n' "refused 7 block 12" "status 1") unit "$built/384-12.town"
compare <(printf '%s\n' "tiles 384" "order $(seq -s ' ' 0 383)") unit "$built/384-16.town"
says 7 16 "block 16, tile 0" "$built/384-16.town"
# With height a directory block has 17 entries: of 18 tiles the first is block 2, in a plan town block 1. A tile's block
# of a plan town is refused there, and a plan town that is too long.
printf 'tile 0 0 0 1 1 1 # %s\n' {1..18} | "$built/town" >"$built/18.town"
recount "$built/18.town" 1 4 2 >"$built/18-1.town"
recount "$built/18.town" 2 4 1 >"$built/18-2.town"
recount "$built/18.town" 2 0 $((0x02D6)) >"$built/18-kind.town"
printf 'tile 0 0 1 1 # %s\n' {1..18} | "$built/town" >"$built/plan-18.town"
recount "$built/plan-18.town" 1 4 1 >"$built/plan-18-1.town"
printf 'tile 0 0 1 1 # %s\n' {1..960} | "$built/town" >"$built/960.town"
(cat "$built/960.town" && head -c 8704 /dev/zero) >"$built/long.town"
(cat "$built/960.town" && head -c 8705 /dev/zero) >"$built/longer.town"
says 7 1 "block 1 of the directory" "$built/18-1.town"
says 7 2 "block 2, tile 0" "$built/18-2.town"
says 4 2 "block 2, tile 0" "$built/18-kind.town"
says 7 1 "block 1, tile 0" "$built/plan-18-1.town"
says 1 0 "the length" "$built/long.town"
says 1 0 "the length" "$built/longer.town"
# The largest file with height is longer than any of a plan town.
printf 'tile 0 0 0 1 1 1 # %s\n' {1..960} | "$built/town" >"$built/960-height.town"
checks() { ("$built/host" "$1" || true) | sed -n 2p; }
compare <(echo 520704) stat -c %s "$built/960-height.town"
compare <(echo "full check: number 0 block 0 tiles 960") checks "$built/960-height.town"
compare <(echo "refused 11 block 0") ask samples/riverside.town 65 0,0
compare <(echo "refused 12 block 0") ask samples/riverside.town 3
compare <(echo "refused 13 block 0") ask samples/riverside.town 3 0,1000001
compare <(echo input) ask samples/riverside.town 3 $(yes 0,0 | head -n 129)
# fails WHY LINES: what town says to a text, given to printf
fails() { compare <(printf 'town: %s\nstatus 1\n' "$1") lines_to_town "$2"; }
bad_box="a coordinate beyond 1,000,000, or a low end above its high end"
fails "line 2: neither a tile nor a site" 'tile 0 0 1 1\nsight 1 1 1\n'
fails "line 2: neither a tile nor a site" '# a word and a number in one\ntile5 0 1 1\n'
fails "line 1: neither a tile nor a site" 'tile 0 0 9-1 9 # no space between two numbers\n'
fails "line 2: neither a tile nor a site" 'tile 0 0 9 9\nsite 1 2+3\n'
fails "line 1: a number beyond 32 bits" 'tile 0 0 1 4294967296\n'
fails "line 2: a number beyond 32 bits" 'tile 0 0 1 1\nsite 0 0 4294967296\n'
fails "line 1: a number beyond 32 bits" "tile 0 -1$(printf '%050d' 0) 1 1\n"
fails "line 2: a cue with a minus" 'tile 0 0 1 1\nsite 0 0 -1\n'
fails "line 2: a cue with a minus" 'tile 0 0 1 1\nsite 0 0 -0\n'
# What the grammar does not have: other spaces, a CR that ends no line, a byte order mark.
for text in 'tile\f0 0 1 1\n' 'tile \f0 0 1 1\n' 'tile 0 0 1 1\v\n' 'tile 0 0 1 1\rsite 1 1 1\n' \
    'tile 0 0 1 1\r\r\n' 'tile 0 0 1 1\r' 'tile 0 0 1 1\0\n' 'tile 0 0 1 1\0' '\xef\xbb\xbf# a town\n' \
    'tile 0 0 1 +-1\n' 'tile 0 0 1 -\n'; do
    fails "line 1: neither a tile nor a site" "$text"
done
fails "line 1: a site before the first tile" 'site 0 0 1\n'
fails "line 3: tile 1, slot 0: the site is outside the tile's box" 'tile 0 0 1 1\ntile 0 0 1 1\nsite 2 1 1\n'
fails "line 4: tile 0, slot 1: the site is outside the tile's box" 'tile 0 0 1 1\n\nsite 1 1 1\nsite 1 -1 1'
fails "line 2: tile 1: $bad_box" 'tile 0 0 1 1\ntile 5 0 4 1\n'
fails "line 1: tile 0: $bad_box" 'tile 0 0 1 1000001\n'
fails "line 42: tile 0: more than 40 sites" "tile 0 0 1 1\n$(yes 'site 1 1 1\n' | head -n 41 | tr -d '\n')"
fails "line 32: tile 0: more than 30 sites" "tile 0 0 0 1 1 1\n$(yes 'site 1 1 1 1\n' | head -n 31 | tr -d '\n')"
fails "line 1: tile 0: $bad_box" 'tile 0 0 5 1 1 4\n'
fails "line 1: tile 0: $bad_box" 'tile 0 0 5 1 1 1000001\n'
fails "line 2: tile 0, slot 0: the site is outside the tile's box" 'tile 0 0 0 1 1 1\nsite 1 1 2 1\n'
fails "line 2: a number beyond 32 bits" 'tile 0 0 0 1 1 1\nsite 1 1 4294967296 1\n'
fails "line 2: a cue with a minus" 'tile 0 0 0 1 1 1\nsite 1 1 1 -1\n'
fails "line 1: a site before the first tile" 'site 0 0 0 1\n'
fails "line 1: neither a tile nor a site" 'tile 0 0 0 1 1\n'
fails "line 2: not as many axes as the first tile, which has 2" 'tile 0 0 1 1\nsite 1 1 1 1\n'
fails "line 2: not as many axes as the first tile, which has 2" 'tile 0 0 1 1\ntile 0 0 0 1 1 1\n'
fails "line 2: not as many axes as the first tile, which has 3" 'tile 0 0 0 1 1 1\nsite 1 1 1\n'
fails "line 961: more than 960 tiles" "$(yes 'tile 0 0 1 1\n' | head -n 961 | tr -d '\n')"
fails "line 1: longer than 254 characters" "# $(yes long | head -n 60 | xargs)\n"
fails "there is no tile" '# nothing\n'
echo "examples: 6 C programs built without a warning, $runs runs compared"
