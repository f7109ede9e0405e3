#include "town.hpp"
#include "../include/nearby.h"
#include <algorithm>
#include <cstdio>
#include <cstdlib>
#include <functional>
#include <random>

namespace {

constexpr int32_t EDGE = 40000;  // of a grid tile: 400 m
constexpr int32_t STOREY = 1000; // of a town with height: 10 m
constexpr int32_t TRACK = 64000; // 5% of the width of the 960-tile grid
constexpr int32_t PART[] = {1, 3, 50}; // on each axis the track goes this part of it; the climb is 2%

class Random {
public:
    explicit Random(uint64_t seed) : engine_(seed) {}
    int32_t within(int32_t low, int32_t high) { return int32_t(low + int64_t(engine_() % uint64_t(high - low + 1))); }
    // The mean of four: close to a bell.
    int32_t bell(int32_t low, int32_t high)
    {
        int64_t sum = 0;
        for (int i = 0; i < 4; i++)
            sum += within(low, high);
        return int32_t(sum / 4);
    }

private:
    std::mt19937_64 engine_;
};

template <size_t A> struct Site {
    std::array<int32_t, A> at;
    bool muted = false;
};

template <size_t A> struct Tile {
    Box<A> box;
    std::vector<Site<A>> sites;
};

// The lists as the writer takes them.
template <size_t A> struct Supply {
    std::vector<int32_t> boxes;
    std::vector<uint32_t> counts, cues;
    std::array<std::vector<int32_t>, A> at;
};

nearby_written write(const Supply<2> &s, Bytes &out)
{
    const auto &[x, y] = s.at;
    return nearby_write(s.boxes.data(), s.boxes.size(), s.counts.data(), s.counts.size(), x.data(), x.size(), y.data(),
                        y.size(), s.cues.data(), s.cues.size(), out.data(), out.size());
}

nearby_written write(const Supply<3> &s, Bytes &out)
{
    const auto &[x, y, z] = s.at;
    return nearby_write3(s.boxes.data(), s.boxes.size(), s.counts.data(), s.counts.size(), x.data(), x.size(), y.data(),
                         y.size(), z.data(), z.size(), s.cues.data(), s.cues.size(), out.data(), out.size());
}

template <size_t A> Bytes written(const std::vector<Tile<A>> &tiles)
{
    Supply<A> l;
    for (const Tile<A> &t : tiles) {
        for (const Span &b : t.box)
            l.boxes.push_back(b.low);
        for (const Span &b : t.box)
            l.boxes.push_back(b.high);
        l.counts.push_back(t.sites.size());
        for (const Site<A> &s : t.sites) {
            for (size_t a = 0; a < A; a++)
                l.at[a].push_back(s.at[a]);
            l.cues.push_back(s.muted ? 0 : uint32_t((l.cues.size() + 1) * 2654435761u)); // the product is never 0
        }
    }
    Bytes out(Format<A>::LONGEST);
    nearby_written w = write(l, out);
    if (w.number != NEARBY_OK) {
        std::fprintf(stderr, "nearby_write refused the town: %u\n", w.number);
        std::exit(1);
    }
    out.resize(w.length);
    return out;
}

template <size_t A> void fill(Tile<A> &t, uint32_t sites, Random &r)
{
    for (uint32_t i = 0; i < sites; i++) {
        Site<A> s;
        for (size_t a = 0; a < A; a++)
            s.at[a] = r.within(t.box[a].low, t.box[a].high);
        t.sites.push_back(s);
    }
}

Box<2> grid_extent(size_t tiles, size_t &columns)
{
    size_t rows = 1;
    for (size_t d = 1; d * d <= tiles; d++)
        if (tiles % d == 0)
            rows = d;
    columns = tiles / rows;
    int32_t w = int32_t(columns) * EDGE, h = int32_t(rows) * EDGE;
    return {{{-w / 2, w / 2 - 1}, {-h / 2, h / 2 - 1}}};
}

Box<2> grid_box(size_t t, size_t columns, const Box<2> &all)
{
    int32_t x = all[0].low + int32_t(t % columns) * EDGE, y = all[1].low + int32_t(t / columns) * EDGE;
    return {{{x, x + EDGE - 1}, {y, y + EDGE - 1}}};
}

std::vector<Tile<2>> grid_tiles(size_t tiles, uint32_t sites, size_t columns, const Box<2> &all)
{
    Random r(1);
    std::vector<Tile<2>> list(tiles);
    for (size_t t = 0; t < tiles; t++) {
        list[t].box = grid_box(t, columns, all);
        fill(list[t], sites, r);
    }
    return list;
}

template <size_t A>
Town<A> town(std::string name, std::string words, const std::vector<Tile<A>> &tiles, const Box<A> &extent,
             const std::array<int32_t, A> &start)
{
    return {std::move(name), std::move(words), written(tiles), extent, start};
}

} // namespace

Town<2> grid(size_t tiles, uint32_t sites)
{
    size_t columns;
    Box<2> all = grid_extent(tiles, columns);
    std::vector<Tile<2>> list = grid_tiles(tiles, sites, columns, all);
    return town("grid " + std::to_string(tiles) + " x " + std::to_string(sites), "tiles of 400 m side by side", list,
                all, {-23000, -9000});
}

Town<2> half_muted()
{
    size_t columns;
    Box<2> all = grid_extent(960, columns);
    std::vector<Tile<2>> list = grid_tiles(960, 40, columns, all);
    for (Tile<2> &t : list)
        for (size_t j = 1; j < t.sites.size(); j += 2)
            t.sites[j].muted = true;
    return town("half muted", "grid 960 x 40, every second site muted", list, all, {-23000, -9000});
}

Town<2> clustered()
{
    Random r(2);
    size_t columns;
    Box<2> all = grid_extent(960, columns);
    std::vector<Site<2>> centres(40), sites(960 * 40);
    for (Site<2> &c : centres)
        for (size_t a = 0; a < 2; a++)
            c.at[a] = r.within(all[a].low / 10 * 9, all[a].high / 10 * 9);
    for (size_t i = 0; i < sites.size(); i++)
        for (size_t a = 0; a < 2; a++) {
            int32_t c = centres[i % centres.size()].at[a];
            sites[i].at[a] = std::clamp(r.bell(c - 60000, c + 60000), all[a].low, all[a].high);
        }
    // Halves the sites across the longer side of their box until each tile has 40.
    std::vector<Tile<2>> list;
    std::function<void(size_t, size_t, size_t)> halve = [&](size_t from, size_t to, size_t tiles) {
        auto a = sites.begin() + from, b = sites.begin() + to;
        auto by_x = [](const Site<2> &p, const Site<2> &q) { return p.at[0] < q.at[0]; };
        auto by_y = [](const Site<2> &p, const Site<2> &q) { return p.at[1] < q.at[1]; };
        auto [xl, xh] = std::minmax_element(a, b, by_x);
        auto [yl, yh] = std::minmax_element(a, b, by_y);
        Box<2> box{{{xl->at[0], xh->at[0]}, {yl->at[1], yh->at[1]}}};
        if (tiles == 1) {
            list.push_back({box, std::vector<Site<2>>(a, b)});
            return;
        }
        size_t left = tiles / 2, cut = from + left * 40;
        if (box[0].high - box[0].low > box[1].high - box[1].low)
            std::nth_element(a, sites.begin() + cut, b, by_x);
        else
            std::nth_element(a, sites.begin() + cut, b, by_y);
        halve(from, cut, left);
        halve(cut, to, tiles - left);
    };
    halve(0, sites.size(), 960);
    return town("clustered", "960 x 40, sites crowd around 40 places, tiles by halving with tight boxes", list, all,
                {centres[0].at[0] - TRACK / 2, centres[0].at[1] - TRACK / 6});
}

Town<2> overlapping()
{
    Random r(3);
    size_t columns;
    Box<2> all = grid_extent(960, columns);
    std::vector<Tile<2>> list(960);
    for (Tile<2> &t : list) {
        int32_t w = r.within(EDGE, 5 * EDGE), h = r.within(EDGE, 5 * EDGE);
        int32_t x = r.within(all[0].low, all[0].high - w), y = r.within(all[1].low, all[1].high - h);
        t.box = {{{x, x + w}, {y, y + h}}};
        fill(t, 40, r);
    }
    return town("overlapping", "960 x 40, boxes of 1 to 5 grid tiles a side, anywhere", list, all, {-23000, -9000});
}

Town<2> alike()
{
    Random r(4);
    size_t columns;
    Box<2> all = grid_extent(960, columns);
    std::vector<Tile<2>> list(960);
    for (Tile<2> &t : list) {
        t.box = all;
        fill(t, 40, r);
    }
    return town("alike", "960 x 40, every box is the whole town: nothing can be struck", list, all, {-23000, -9000});
}

Town<3> storeys(size_t tiles, uint32_t sites)
{
    Random r(8);
    size_t columns, storey = tiles / 3;
    Box<2> plan = grid_extent(storey, columns);
    std::vector<Tile<3>> list(storey * 3);
    for (size_t t = 0; t < list.size(); t++) {
        Box<2> b = grid_box(t % storey, columns, plan);
        int32_t z = (int32_t(t / storey) - 1) * STOREY;
        list[t].box = {{b[0], b[1], {z, z + STOREY - 1}}};
        fill(list[t], sites, r);
    }
    Box<3> all{{plan[0], plan[1], {-STOREY, 2 * STOREY - 1}}};
    return town("height " + std::to_string(tiles) + " x " + std::to_string(sites),
                "with height, tiles of 400 m by 400 m by 10 m in three storeys: underpass, street, viaduct", list, all,
                {-23000, -9000, 100});
}

template <size_t A> Town<A> tied()
{
    Random r(5);
    constexpr int32_t REACH[] = {20, 20, 2};
    auto all = made<Box<A>, A>([&](size_t a) { return Span{-REACH[a], REACH[a]}; });
    std::vector<Tile<A>> list(50);
    for (Tile<A> &t : list) {
        for (size_t a = 0; a < A; a++)
            t.box[a].low = r.within(-REACH[a], REACH[a] / 2);
        for (size_t a = 0; a < A; a++)
            t.box[a].high = t.box[a].low + r.within(0, REACH[a] / 2);
        fill(t, uint32_t(r.within(0, 4)) * 2, r);
        for (Site<A> &s : t.sites)
            s.muted = r.within(0, 2) == 0;
    }
    return town(A == 2 ? "tied" : "tied, height", "many equal distances, muted sites among them", list, all,
                made<std::array<int32_t, A>, A>([&](size_t a) { return all[a].low; }));
}

template <size_t A> Stops<A> track(const Town<A> &town, size_t n)
{
    Stops<A> s;
    for (size_t i = 0; i < n; i++)
        for (size_t a = 0; a < A; a++)
            s[a].push_back(town.start[a] + int32_t(TRACK * i / n / PART[a]));
    return s;
}

template <size_t A> Stops<A> spread(const Town<A> &town, size_t n)
{
    Random r(6);
    Stops<A> s;
    for (size_t i = 0; i < n; i++)
        for (size_t a = 0; a < A; a++)
            s[a].push_back(r.within(town.extent[a].low, town.extent[a].high));
    return s;
}

template Town<2> tied<2>();
template Town<3> tied<3>();
template Stops<2> track<2>(const Town<2> &, size_t);
template Stops<3> track<3>(const Town<3> &, size_t);
template Stops<2> spread<2>(const Town<2> &, size_t);
template Stops<3> spread<3>(const Town<3> &, size_t);
