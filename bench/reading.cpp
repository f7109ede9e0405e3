#include "reading.hpp"
#include <algorithm>

static constexpr int32_t LIMIT = 1000000;

static void test(bool holds, uint32_t number, size_t block)
{
    if (!holds)
        throw Refused{number, block};
}

static bool zeros(const uint8_t *block, size_t from, size_t to)
{
    return std::all_of(block + from, block + to, [](uint8_t b) { return b == 0; });
}

// Tests 2 to 5.
static void check_head(const uint8_t *b, uint8_t kind, size_t position, BlockCheck check)
{
    uint32_t number = check(b, BLOCK);
    test(number == 0, number, position);
    test(b[1] == kind, 4, position);
    test(u16_at(b + 2) == position, 5, position);
}

template <size_t A> static bool valid(const Box<A> &b)
{
    return all<A>([&](size_t a) { return -LIMIT <= b[a].low && b[a].low <= b[a].high && b[a].high <= LIMIT; });
}

template <size_t A> Directory<A> read_directory(const Bytes &file, BlockCheck check)
{
    using F = Format<A>;
    test(!file.empty() && file.size() % BLOCK == 0 && file.size() <= F::LONGEST, 1, 0);
    size_t tiles = u16_at(&file[6]);
    Directory<A> dir{F::blocks(tiles), {}, {}, {}};
    dir.box.reserve(tiles);
    dir.count.reserve(tiles);
    dir.muted.reserve(tiles);
    for (size_t d = 0; d == 0 || d < dir.blocks; d++) {
        const uint8_t *b = &file[d * BLOCK];
        check_head(b, F::DIRECTORY, d, check);
        test(u16_at(b + 6) == tiles && 1 <= tiles && tiles <= TILES && (dir.blocks + tiles) * BLOCK == file.size(), 6,
             d);
        size_t entries = std::min(F::ENTRIES, tiles - F::ENTRIES * d);
        test(u16_at(b + 4) == entries, 7, d);
        test(zeros(b, 8, PAYLOAD) && zeros(b, PAYLOAD + entries * F::ENTRY, 510), 8, d);
        for (size_t i = 0; i < entries; i++) {
            const uint8_t *e = b + PAYLOAD + i * F::ENTRY;
            dir.box.push_back(made<Box<A>, A>([&](size_t a) {
                return Span{i32_at(e + 4 * a), i32_at(e + 4 * (A + a))};
            }));
            dir.count.push_back(u16_at(e + 8 * A));
            dir.muted.push_back(u16_at(e + 8 * A + 2));
            test(valid<A>(dir.box.back()) && dir.count.back() <= F::SITES && dir.muted.back() <= dir.count.back(), 9,
                 d);
        }
    }
    return dir;
}

template <size_t A> void check_tile(const Bytes &file, const Directory<A> &dir, size_t t, BlockCheck check)
{
    using F = Format<A>;
    const uint8_t *b = tile_block(file, dir, t);
    size_t position = dir.blocks + t, n = dir.count[t];
    check_head(b, F::TILE, position, check);
    test(u16_at(b + 4) == n, 7, position);
    test(zeros(b, 6, PAYLOAD) && zeros(b, PAYLOAD + n * F::SITE, 510), 8, position);
    const Box<A> &box = dir.box[t];
    for (size_t j = 0; j < n; j++) {
        const uint8_t *p = b + PAYLOAD + j * F::SITE;
        test(all<A>([&](size_t a) { return box[a].low <= i32_at(p + 4 * a) && i32_at(p + 4 * a) <= box[a].high; }), 10,
             position);
    }
    uint32_t muted = 0;
    for (size_t j = 0; j < n; j++)
        muted += u32_at(b + PAYLOAD + j * F::SITE + F::CUE) == 0;
    test(muted == dir.muted[t], 16, position);
}

template <size_t A> Sites<A> read_sites(const Bytes &file, BlockCheck check)
{
    using F = Format<A>;
    Directory<A> dir = read_directory<A>(file, check);
    Sites<A> s;
    size_t n = dir.sites();
    for (std::vector<double> &axis : s.at)
        axis.reserve(n);
    s.site.reserve(n);
    s.cue.reserve(n);
    for (size_t t = 0; t < dir.tiles(); t++) {
        check_tile(file, dir, t, check);
        const uint8_t *p = tile_block(file, dir, t) + PAYLOAD;
        for (size_t j = 0; j < dir.count[t]; j++, p += F::SITE) {
            if (u32_at(p + F::CUE) == 0)
                continue;
            for (size_t a = 0; a < A; a++)
                s.at[a].push_back(i32_at(p + 4 * a));
            s.cue.push_back(u32_at(p + F::CUE));
            s.site.push_back(t * SLOTS + j);
        }
    }
    return s;
}

template Directory<2> read_directory<2>(const Bytes &, BlockCheck);
template Directory<3> read_directory<3>(const Bytes &, BlockCheck);
template void check_tile<2>(const Bytes &, const Directory<2> &, size_t, BlockCheck);
template void check_tile<3>(const Bytes &, const Directory<3> &, size_t, BlockCheck);
template Sites<2> read_sites<2>(const Bytes &, BlockCheck);
template Sites<3> read_sites<3>(const Bytes &, BlockCheck);
