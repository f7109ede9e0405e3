// The file as the peers read it (the paper, "Blocks", and request 2): every test that the engine makes of a block is
// made here too.
#pragma once
#include "axes.hpp"
#include <array>
#include <cstddef>
#include <cstdint>
#include <cstring>
#include <numeric>
#include <vector>

constexpr size_t BLOCK = 512, PAYLOAD = 16, ROOM = 480, TILES = 960;
constexpr size_t SLOTS = 40; // of a tile, in the numbers of sites; with height too, where 30 are used

// Bytes of an entry and of a site, how many fit a block, the kinds of blocks, and the longest file.
template <size_t A> struct Format {
    static constexpr size_t ENTRY = 8 * A + 4, SITE = 4 * A + 4, CUE = 4 * A;
    static constexpr size_t ENTRIES = ROOM / ENTRY, SITES = ROOM / SITE;
    static constexpr uint8_t DIRECTORY = 2 * A - 3, TILE = 2 * A - 2;
    static constexpr size_t blocks(size_t tiles) { return (tiles + ENTRIES - 1) / ENTRIES; } // of the directory
    static constexpr size_t LONGEST = (blocks(TILES) + TILES) * BLOCK;
};

using Bytes = std::vector<uint8_t>;
using BlockCheck = uint32_t (*)(const uint8_t *, size_t);

struct Span {
    int32_t low, high;
};

template <size_t A> using Box = std::array<Span, A>;

template <size_t A> struct Directory {
    size_t blocks;
    std::vector<Box<A>> box; // one for each tile
    std::vector<uint32_t> count, muted;
    uint32_t sounding(size_t t) const { return count[t] - muted[t]; }
    size_t tiles() const { return box.size(); }
    size_t sites() const { return std::accumulate(count.begin(), count.end(), size_t(0)); }
};

// A file that is refused: the peers are only run on good files, so this ends the program.
struct Refused {
    uint32_t number;
    size_t block;
};

inline uint32_t u16_at(const uint8_t *p) { return p[0] | p[1] << 8; }
inline int32_t i32_at(const uint8_t *p) { int32_t v; std::memcpy(&v, p, 4); return v; }
inline uint32_t u32_at(const uint8_t *p) { uint32_t v; std::memcpy(&v, p, 4); return v; }

template <size_t A> const uint8_t *tile_block(const Bytes &file, const Directory<A> &dir, size_t t)
{
    return &file[(dir.blocks + t) * BLOCK];
}

// Reads and checks the directory: tests 1 to 9.
template <size_t A> Directory<A> read_directory(const Bytes &file, BlockCheck check);

// Checks the block of tile t: tests 2, 3, 4, 5, 7, 8, 10, 16.
template <size_t A> void check_tile(const Bytes &file, const Directory<A> &dir, size_t t, BlockCheck check);

// All sounding sites of a file in the order of tile and slot, after checking every block. Coordinates are held as
// doubles, which hold every squared distance (at most 12e12) exactly.
template <size_t A> struct Sites {
    std::array<std::vector<double>, A> at; // the coordinates, axis by axis
    std::vector<uint32_t> site, cue;
    size_t size() const { return site.size(); }
};

template <size_t A> Sites<A> read_sites(const Bytes &file, BlockCheck check);
