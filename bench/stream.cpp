// The sequence for streaming (document 02.5) by Kahn's algorithm: each tile has the number of the tiles left that are
// nearer than it; one with the number 0 is free; the free one of the lowest number comes next, and the numbers of the
// tiles that it is nearer than are lowered.
// (g) finds for each pair once whether one is nearer, keeps for each tile a list of those that it is nearer than, and
// the free tiles in a heap.
// (h) keeps no list and no heap: at each step the first tile with the number 0 is looked for from tile 0 on, and
// which tiles it is nearer than is found again.
// Both: check and decode the directory; far and near of each tile from each corner of O, once; E is nearer than B when
// far of E is below near of B from every corner, left at the first corner where it is not.
#include "stream.hpp"
#include <algorithm>
#include <functional>
#include <queue>

namespace {

int64_t square(int64_t a) { return a * a; }
int64_t near_square(int64_t p, const Span &b)
{
    return p < b.low ? square(b.low - p) : p > b.high ? square(p - b.high) : 0;
}
int64_t far_square(int64_t p, const Span &b) { return std::max(square(p - b.low), square(b.high - p)); }

template <size_t A> class Nearer {
public:
    Nearer(const Directory<A> &dir, const Box<A> &o) : far_(dir.tiles()), near_(dir.tiles())
    {
        for (size_t t = 0; t < dir.tiles(); t++)
            for (size_t c = 0; c < CORNERS; c++) {
                const Box<A> &b = dir.box[t];
                auto end = [&](size_t a) { return c >> a & 1 ? o[a].high : o[a].low; };
                far_[t][c] = sum<A>([&](size_t a) { return far_square(end(a), b[a]); });
                near_[t][c] = sum<A>([&](size_t a) { return near_square(end(a), b[a]); });
            }
    }
    bool operator()(size_t e, size_t b) const
    {
        for (size_t c = 0; c < CORNERS; c++)
            if (far_[e][c] >= near_[b][c])
                return false;
        return true;
    }

private:
    static constexpr size_t CORNERS = 1 << A; // bit a: the high end of axis a
    std::vector<std::array<int64_t, CORNERS>> far_, near_;
};

} // namespace

template <size_t A> Ordered heap_order(const Bytes &file, BlockCheck check, const Box<A> &o, Order &order)
{
    Directory<A> dir = read_directory<A>(file, check);
    Nearer<A> nearer(dir, o);
    size_t tiles = dir.tiles(), pairs = 0;
    std::vector<uint32_t> left(tiles);
    std::vector<std::vector<uint32_t>> behind(tiles); // those that a tile is nearer than
    for (uint32_t e = 0; e < tiles; e++) {
        for (uint32_t b = 0; b < tiles; b++)
            if (nearer(e, b)) {
                behind[e].push_back(b);
                left[b]++;
            }
        pairs += behind[e].size();
    }
    std::priority_queue<uint32_t, std::vector<uint32_t>, std::greater<>> free;
    for (uint32_t t = 0; t < tiles; t++)
        if (left[t] == 0)
            free.push(t);
    Ordered ordered{pairs, free.size()};
    for (size_t i = 0; !free.empty(); i++) {
        uint32_t e = free.top();
        free.pop();
        order[i] = e;
        for (uint32_t b : behind[e])
            if (--left[b] == 0)
                free.push(b);
    }
    return ordered;
}

template <size_t A> Ordered scan_order(const Bytes &file, BlockCheck check, const Box<A> &o, Order &order)
{
    constexpr uint32_t TAKEN = UINT32_MAX;
    Directory<A> dir = read_directory<A>(file, check);
    Nearer<A> nearer(dir, o);
    size_t tiles = dir.tiles();
    std::vector<uint32_t> left(tiles);
    for (size_t b = 0; b < tiles; b++)
        for (size_t e = 0; e < tiles; e++)
            left[b] += nearer(e, b);
    Ordered ordered{std::accumulate(left.begin(), left.end(), size_t(0)),
                    size_t(std::count(left.begin(), left.end(), 0u))};
    for (size_t i = 0; i < tiles; i++) {
        size_t e = size_t(std::find(left.begin(), left.end(), 0u) - left.begin());
        order[i] = uint32_t(e);
        left[e] = TAKEN;
        for (size_t b = 0; b < tiles; b++)
            if (left[b] != TAKEN && nearer(e, b))
                left[b]--;
    }
    return ordered;
}

template Ordered heap_order<2>(const Bytes &, BlockCheck, const Box<2> &, Order &);
template Ordered heap_order<3>(const Bytes &, BlockCheck, const Box<3> &, Order &);
template Ordered scan_order<2>(const Bytes &, BlockCheck, const Box<2> &, Order &);
template Ordered scan_order<3>(const Bytes &, BlockCheck, const Box<3> &, Order &);
