// The sequence for streaming by two other programs: from the file's bytes to the tile numbers.
#pragma once
#include "reading.hpp"

using Order = std::vector<uint32_t>; // tile numbers

struct Ordered {
    size_t pairs; // of tiles, one nearer than the other
    size_t free;  // tiles that no tile is nearer than: those free at the start
};

// (g) and (h) of bench/stream.cpp. The first T elements of `order` take the sequence.
template <size_t A> Ordered heap_order(const Bytes &file, BlockCheck check, const Box<A> &o, Order &order);
template <size_t A> Ordered scan_order(const Bytes &file, BlockCheck check, const Box<A> &o, Order &order);
