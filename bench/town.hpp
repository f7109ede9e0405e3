// The inputs: towns written by nearby_write and nearby_write3, and stops. Everything comes from a fixed seed.
#pragma once
#include "peers.hpp"
#include <string>

template <size_t A> struct Town {
    std::string name, words;
    Bytes file;
    Box<A> extent;
    std::array<int32_t, A> start; // of the track
};

Town<2> grid(size_t tiles, uint32_t sites);    // square tiles side by side, sites anywhere in them
Town<2> half_muted();                          // grid 960 x 40, every second site muted
Town<2> clustered();                           // 960 x 40: sites crowd around 40 places; tiles by halving, boxes tight
Town<2> overlapping();                         // 960 x 40: boxes of up to five grid tiles a side, anywhere
Town<2> alike();                               // 960 x 40: every box is the whole town
Town<3> storeys(size_t tiles, uint32_t sites); // three grids one above the other: underpass, street, viaduct

// Small, empty tiles, muted sites, many equal distances: not timed.
template <size_t A> Town<A> tied();

// n stops evenly on a line of 640 m (x) by 213 m (y), which with height climbs 13 m (z).
template <size_t A> Stops<A> track(const Town<A> &town, size_t n);
// n stops anywhere in the town.
template <size_t A> Stops<A> spread(const Town<A> &town, size_t n);
