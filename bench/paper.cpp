// (e) The paper's own algorithm, as one would write it down, and (f) the same made quicker by keeping what does not
// change.
// Both: check and decode the directory; for each tile B the sounding sites of the nearer tiles, left as soon as they
// reach k; for each stop a heap by key of the tiles that are not struck and have a sounding site; each tile opened once
// a run, with all tests; sites read from the block's bytes; the k best in a sorted vector.
// (e) takes the margin of each pair of tiles from their boxes, and looks through all tiles for each stop.
// (f) takes for each tile and each end of the box O the far and near square once, and gathers the tiles that wait once.
// Neither sorts or groups tiles in space, keeps anything of one stop's walk for the next, or uses vector instructions
// by hand or threads.
#include "peers.hpp"
#include <functional>

namespace {

int64_t square(int64_t a) { return a * a; }
int64_t near_square(int64_t p, int64_t low, int64_t high)
{
    return p < low ? square(low - p) : p > high ? square(p - high) : 0;
}
int64_t far_square(int64_t p, int64_t low, int64_t high) { return std::max(square(p - low), square(high - p)); }

int64_t axis_margin(int64_t o0, int64_t o1, int64_t e0, int64_t e1, int64_t b0, int64_t b1)
{
    return std::max(far_square(o0, e0, e1) - near_square(o0, b0, b1), far_square(o1, e0, e1) - near_square(o1, b0, b1));
}

// The margin of each pair, from the boxes.
template <size_t A> struct PairMargins {
    const Directory<A> &dir;
    Box<A> o;
    int64_t operator()(size_t e, size_t b) const
    {
        const Box<A> &p = dir.box[e], &q = dir.box[b];
        return sum<A>([&](size_t a) {
            return axis_margin(o[a].low, o[a].high, p[a].low, p[a].high, q[a].low, q[a].high);
        });
    }
};

// The margin of each pair, from squares taken once for each tile, on each axis from both ends of O.
struct Ends {
    int64_t low, high;
};

template <size_t A> struct TableMargins {
    std::vector<std::array<Ends, A>> far, near;
    TableMargins(const Directory<A> &dir, const Box<A> &o) : far(dir.tiles()), near(dir.tiles())
    {
        for (size_t t = 0; t < dir.tiles(); t++)
            for (size_t a = 0; a < A; a++) {
                const Span &b = dir.box[t][a];
                far[t][a] = {far_square(o[a].low, b.low, b.high), far_square(o[a].high, b.low, b.high)};
                near[t][a] = {near_square(o[a].low, b.low, b.high), near_square(o[a].high, b.low, b.high)};
            }
    }
    int64_t operator()(size_t e, size_t b) const
    {
        return sum<A>([&](size_t a) {
            return std::max(far[e][a].low - near[b][a].low, far[e][a].high - near[b][a].high);
        });
    }
};

template <size_t A, class Margins>
std::vector<uint8_t> strike(const Directory<A> &dir, const Margins &margin, uint32_t k, PaperCounts &counts)
{
    size_t tiles = dir.tiles();
    std::vector<uint8_t> marks(tiles);
    for (size_t b = 0; b < tiles; b++) {
        uint32_t sum = 0;
        for (size_t e = 0; e < tiles && sum < k; e++)
            if (margin(e, b) < 0)
                sum += dir.sounding(e);
        if (sum >= k) {
            marks[b] = 1;
            counts.struck++;
        }
    }
    return marks;
}

struct Key {
    uint64_t near;
    uint32_t tile;
    bool operator>(const Key &o) const { return near != o.near ? near > o.near : tile > o.tile; }
};

// Serves the stops; `each_waiting` calls its argument with each tile that is not struck and has a sounding site.
template <size_t A, class Waiting>
void serve(const Query<A> &q, BlockCheck check, const Directory<A> &dir, std::vector<uint8_t> &marks,
           const Waiting &each_waiting, PaperCounts &counts, Lists &out)
{
    std::vector<Key> keys;
    keys.reserve(dir.tiles());
    Best<A> best(q.k);
    for (size_t i = 0; i < q.stops(); i++) {
        auto stop = stop_at<int64_t>(q, i);
        keys.clear();
        each_waiting([&](uint32_t t) {
            const Box<A> &b = dir.box[t];
            keys.push_back({uint64_t(sum<A>([&](size_t a) { return near_square(stop[a], b[a].low, b[a].high); })), t});
        });
        std::make_heap(keys.begin(), keys.end(), std::greater<>());
        best.clear();
        while (!keys.empty()) {
            Key next = keys.front();
            if (best.full() && (best.last().dist < next.near ||
                                (best.last().dist == next.near && best.last().site / SLOTS < next.tile)))
                break;
            std::pop_heap(keys.begin(), keys.end(), std::greater<>());
            keys.pop_back();
            if (marks[next.tile] == 0) {
                check_tile(q.file, dir, next.tile, check);
                marks[next.tile] = 2;
                counts.opened++;
            }
            const uint8_t *p = tile_block(q.file, dir, next.tile) + PAYLOAD;
            for (uint32_t j = 0; j < dir.count[next.tile]; j++, p += Format<A>::SITE)
                if (u32_at(p + Format<A>::CUE) != 0)
                    best.add({uint64_t(sum<A>([&](size_t a) { return square(i32_at(p + 4 * a) - stop[a]); })),
                              uint32_t(next.tile * SLOTS + j), u32_at(p + Format<A>::CUE)});
        }
        best.put(out, i);
    }
}

template <size_t A> Box<A> around(const Query<A> &q)
{
    return made<Box<A>, A>([&](size_t a) {
        auto [low, high] = std::minmax_element(q.at[a].begin(), q.at[a].end());
        return Span{*low, *high};
    });
}

} // namespace

template <size_t A> PaperCounts paper(const Query<A> &q, BlockCheck check, Lists &out)
{
    Directory<A> dir = read_directory<A>(q.file, check);
    PaperCounts counts{0, 0};
    std::vector<uint8_t> marks = strike(dir, PairMargins<A>{dir, around(q)}, q.k, counts);
    auto all = [&](auto take) {
        for (uint32_t t = 0; t < dir.tiles(); t++)
            if (marks[t] != 1 && dir.sounding(t) != 0)
                take(t);
    };
    serve(q, check, dir, marks, all, counts, out);
    return counts;
}

template <size_t A> PaperCounts tuned_paper(const Query<A> &q, BlockCheck check, Lists &out)
{
    Directory<A> dir = read_directory<A>(q.file, check);
    PaperCounts counts{0, 0};
    std::vector<uint8_t> marks = strike(dir, TableMargins<A>(dir, around(q)), q.k, counts);
    std::vector<uint32_t> waiting;
    for (uint32_t t = 0; t < dir.tiles(); t++)
        if (marks[t] != 1 && dir.sounding(t) != 0)
            waiting.push_back(t);
    auto gathered = [&](auto take) {
        for (uint32_t t : waiting)
            take(t);
    };
    serve(q, check, dir, marks, gathered, counts, out);
    return counts;
}

template PaperCounts paper<2>(const Query<2> &, BlockCheck, Lists &);
template PaperCounts paper<3>(const Query<3> &, BlockCheck, Lists &);
template PaperCounts tuned_paper<2>(const Query<2> &, BlockCheck, Lists &);
template PaperCounts tuned_paper<3>(const Query<3> &, BlockCheck, Lists &);
