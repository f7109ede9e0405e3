// The benchmark: `bench RESULTS` measures everything in two passes, so that a disturbance of minutes spoils one of them
// at most; it prints the figures and writes them to the file RESULTS, one to a line. The report takes the better of the
// two.
// `bench one RUNNER TOWN STOPS N K SECONDS` repeats one runner on one input, for a profiler; `bench order RUNNER TOWN O
// SECONDS` the same for the sequence.
// The clock runs from the file's bytes in memory to the filled lists. The output slices are made before.
#include "../include/nearby.h"
#include "checks.h"
#include "levels.h"
#include "measure.hpp"
#include "peers.hpp"
#include "stack.hpp"
#include "stream.hpp"
#include "town.hpp"
#include <cstdio>
#include <cstdlib>
#include <cstring>
#include <random>

namespace {

FILE *results;

[[noreturn]] void fail(const std::string &why)
{
    std::fprintf(stderr, "bench: %s\n", why.c_str());
    std::exit(1);
}

// (a) The proved join.
struct Engine {
    std::vector<uint8_t> marks = std::vector<uint8_t>(NEARBY_MAX_TILES);
    nearby_joined joined{};
    void run(const Query<2> &q, Lists &out)
    {
        const auto &[x, y] = q.at;
        joined = nearby_join(q.file.data(), q.file.size(), x.data(), x.size(), y.data(), y.size(), q.k,
                             out.dist.data(), out.dist.size(), out.site.data(), out.site.size(), out.cue.data(),
                             out.cue.size(), marks.data(), marks.size());
    }
    void run(const Query<3> &q, Lists &out)
    {
        const auto &[x, y, z] = q.at;
        joined = nearby_join3(q.file.data(), q.file.size(), x.data(), x.size(), y.data(), y.size(), z.data(), z.size(),
                              q.k, out.dist.data(), out.dist.size(), out.site.data(), out.site.size(), out.cue.data(),
                              out.cue.size(), marks.data(), marks.size());
    }
};

// One input with everything that answers it: (a) to (f), each with lists of its own.
template <size_t A> class Cell {
public:
    Cell(const Town<A> &town, const std::string &stops, size_t n, uint32_t k, BlockCheck check = c_block_check)
        : town_(town), kind_(stops), stops_(stops == "track" ? track(town, n) : spread(town, n)),
          query_{town.file, stops_, k}, check_(check), lists_(6, Lists(n * k))
    {
    }

    std::vector<Runner> runners()
    {
        std::vector<Runner> r;
        r.push_back({"engine", [this] { engine_.run(query_, lists_[0]); }});
        r.push_back({"search", [this] { full_search<A>(town_.file, check_, Use::ONCE)->ask(query_, lists_[1]); }});
        r.push_back({"nanoflann", [this] {
                         nanoflann_tree<A>(town_.file, check_, Use::ONCE)->ask(query_, lists_[2]);
                     }});
        r.push_back({"rtree", [this] { boost_rtree<A>(town_.file, check_, Use::ONCE)->ask(query_, lists_[3]); }});
        r.push_back({"paper", [this] { counts_[0] = paper(query_, check_, lists_[4]); }});
        r.push_back({"tuned", [this] { counts_[1] = tuned_paper(query_, check_, lists_[5]); }});
        return r;
    }

    // The same questions to an index that is ready.
    std::vector<Runner> askers()
    {
        ready_.clear();
        for (auto make : {full_search<A>, nanoflann_tree<A>, boost_rtree<A>})
            ready_.push_back(make(town_.file, check_, Use::AGAIN));
        std::vector<Runner> r;
        const char *names[] = {"search", "nanoflann", "rtree"};
        for (size_t i = 0; i < 3; i++)
            r.push_back({names[i], [this, i] { ready_[i]->ask(query_, lists_[1 + i]); }});
        return r;
    }

    // All lists that were made are the same, and the counts of (e) and (f) are those of the engine.
    void compare() const
    {
        std::string where = town_.name + ", " + kind_ + ", n " + std::to_string(query_.stops()) + ", k " +
                            std::to_string(query_.k);
        if (engine_.joined.number != NEARBY_OK)
            fail("the engine refused " + where);
        for (size_t i = 1; i < 6; i++)
            if (!(lists_[i] == lists_[0]))
                fail("lists differ: " + where + ", peer " + std::to_string(i));
        for (const PaperCounts &c : counts_)
            if (c.opened != engine_.joined.opened || c.struck != engine_.joined.pruned)
                fail("counts differ: " + where);
    }

    void write(const std::string &group, const std::vector<Runner> &runners) const
    {
        for (const Runner &r : runners)
            std::fprintf(results, "%s\t%s\t%s\t%zu\t%u\t%s\t%.4f\n", group.c_str(), town_.name.c_str(), kind_.c_str(),
                         query_.stops(), query_.k, r.name.c_str(), r.best);
    }

    void write_counts() const
    {
        const nearby_joined &j = engine_.joined;
        std::fprintf(results, "counts\t%s\t%s\t%zu\t%u\t%u\t%u\t%u\n", town_.name.c_str(), kind_.c_str(),
                     query_.stops(), query_.k, j.tiles, j.opened, j.pruned);
    }

    void print(const std::vector<Runner> &runners) const
    {
        std::printf("%-15s %-6s %4zu %3u", town_.name.c_str(), kind_.c_str(), query_.stops(), query_.k);
        for (const Runner &r : runners)
            std::printf(" %10.1f", r.best);
        std::printf("  ");
        for (size_t i = 1; i < runners.size(); i++)
            std::printf(" %7.2f", runners[i].best / runners[0].best);
        std::printf("   %u/%u\n", engine_.joined.opened, engine_.joined.pruned);
        std::fflush(stdout);
    }

private:
    const Town<A> &town_;
    std::string kind_;
    Stops<A> stops_;
    Query<A> query_;
    BlockCheck check_;
    Engine engine_;
    PaperCounts counts_[2] = {};
    std::vector<std::unique_ptr<Index<A>>> ready_;
    std::vector<Lists> lists_;
};

void header(const char *title)
{
    std::printf("\n%s: microseconds, then ratios to the engine, then tiles opened/struck\n"
                "%-15s %-6s %4s %3s %10s %10s %10s %10s %10s %10s\n",
                title, "town", "stops", "n", "k", "engine", "search", "nanoflann", "rtree", "paper", "tuned");
}

template <size_t A>
void measure_cell(const char *group, const Town<A> &town, const std::string &stops, size_t n, uint32_t k,
                  BlockCheck check = c_block_check)
{
    Cell<A> cell(town, stops, n, k, check);
    std::vector<Runner> runners = cell.runners();
    measure(runners);
    cell.compare();
    cell.print(runners);
    cell.write(group, runners);
    if (std::string(group) != "main")
        return;
    cell.write_counts();
    std::vector<Runner> askers = cell.askers();
    measure(askers, 30000);
    cell.compare();
    cell.write("ask", askers);
}

template <size_t A> void measure_town(const Town<A> &town, const char *stops)
{
    std::fprintf(results, "town\t%s\t%zu\t%s\n", town.name.c_str(), A, town.words.c_str());
    for (size_t n : {1, 256})
        for (uint32_t k : {1, 8, 64})
            measure_cell("main", town, stops, n, k);
}

// The sequence for streaming. (a) The proved one.
nearby_streamed engine_order(const Bytes &f, const Box<2> &o, Order &order)
{
    return nearby_stream_order(f.data(), f.size(), o[0].low, o[0].high, o[1].low, o[1].high, order.data(),
                               order.size());
}

nearby_streamed engine_order(const Bytes &f, const Box<3> &o, Order &order)
{
    return nearby_stream_order3(f.data(), f.size(), o[0].low, o[0].high, o[1].low, o[1].high, o[2].low, o[2].high,
                                order.data(), order.size());
}

// The box O: around the track, the whole town, or the point where the track starts.
template <size_t A> Box<A> box_named(const Town<A> &town, const std::string &name)
{
    if (name == "town")
        return town.extent;
    Stops<A> s = track(town, name == "point" ? 1 : 256);
    return made<Box<A>, A>([&](size_t a) {
        auto [low, high] = std::minmax_element(s[a].begin(), s[a].end());
        return Span{*low, *high};
    });
}

// One town and O with (a), (g) and (h), each with a sequence of its own. The peers sum up a block the quickest way.
template <size_t A> class OrderCell {
public:
    OrderCell(const Town<A> &town, const std::string &box)
        : town_(town), name_(box), o_(box_named(town, box)), orders_(3, Order(NEARBY_MAX_TILES))
    {
    }

    std::vector<Runner> runners()
    {
        return {{"engine", [this] { streamed_ = engine_order(town_.file, o_, orders_[0]); }},
                {"heap", [this] { counts_[0] = heap_order(town_.file, c_block_check_lanes, o_, orders_[1]); }},
                {"scan", [this] { counts_[1] = scan_order(town_.file, c_block_check_lanes, o_, orders_[2]); }}};
    }

    void compare() const
    {
        std::string where = town_.name + ", O " + name_;
        if (streamed_.number != NEARBY_OK)
            fail("the engine refused the sequence of " + where);
        for (const Order &order : orders_)
            if (order != orders_[0])
                fail("sequences differ: " + where);
        if (counts_[0].pairs != counts_[1].pairs || counts_[0].free != counts_[1].free)
            fail("counts of the sequence differ: " + where);
    }

    void write(const std::string &group, const std::vector<Runner> &runners) const
    {
        std::printf("%-15s %-6s %4u", town_.name.c_str(), name_.c_str(), streamed_.tiles);
        for (const Runner &r : runners) {
            std::printf(" %10.1f", r.best);
            std::fprintf(results, "%s\t%s\t%s\t%u\t%s\t%.4f\n", group.c_str(), town_.name.c_str(), name_.c_str(),
                         streamed_.tiles, r.name.c_str(), r.best);
        }
        for (size_t i = 1; i < runners.size(); i++)
            std::printf(" %7.2f", runners[i].best / runners[0].best);
        std::printf("   %zu/%zu\n", counts_[0].pairs, counts_[0].free);
        std::fflush(stdout);
        std::fprintf(results, "ordered\t%s\t%s\t%zu\t%zu\n", town_.name.c_str(), name_.c_str(), counts_[0].pairs,
                     counts_[0].free);
    }

private:
    const Town<A> &town_;
    std::string name_;
    Box<A> o_;
    nearby_streamed streamed_{};
    Ordered counts_[2] = {};
    std::vector<Order> orders_;
};

template <size_t A> void measure_order(const char *group, const Town<A> &town, const std::string &box)
{
    OrderCell<A> cell(town, box);
    std::vector<Runner> runners = cell.runners();
    measure(runners);
    cell.compare();
    cell.write(group, runners);
}

template <size_t A> void try_order(const Town<A> &town)
{
    for (const char *box : {"track", "town", "point"}) {
        OrderCell<A> cell(town, box);
        for (Runner &r : cell.runners())
            r.run();
        cell.compare();
    }
}

template <size_t A> void measure_orders(const Town<A> &town)
{
    for (const char *box : {"track", "town", "point"})
        measure_order("order", town, box);
}

void measure_orders(const Town<2> &town, const Town<3> &high)
{
    std::printf("\nThe sequence: microseconds, then ratios to the engine, then nearer pairs/tiles free at the start\n"
                "%-15s %-6s %4s %10s %10s %10s\n", "town", "O", "T", "engine", "heap", "scan");
    measure_orders(town);
    for (const Town<2> &t : {clustered(), overlapping(), alike()})
        measure_orders(t);
    measure_orders(high);
    for (size_t tiles : {24, 48, 96, 192, 384, 768, 960})
        measure_order("order-T", grid(tiles, 40), "track");
}

void measure_inputs(const Town<2> &town, const Town<3> &high)
{
    header("All inputs");
    measure_town(town, "track");
    measure_town(town, "spread");
    for (const Town<2> &t : {grid(960, 8), half_muted(), clustered(), overlapping(), alike()})
        measure_town(t, "track");
    measure_town(high, "track");
    measure_town(high, "spread");
    header("Peers with the quickest check");
    for (const char *stops : {"track", "spread"})
        measure_cell("quick", town, stops, 256, 8, c_block_check_lanes);
    for (const char *stops : {"track", "spread"})
        measure_cell("quick", high, stops, 256, 8, c_block_check_lanes);
}

template <size_t A> void try_cell(const Town<A> &town, const char *stops, size_t n, uint32_t k, BlockCheck check)
{
    Cell<A> cell(town, stops, n, k, check);
    for (Runner &r : cell.runners())
        r.run();
    cell.compare();
    for (Runner &r : cell.askers())
        r.run();
    cell.compare();
}

// Lists with many ties, empty tiles and unused places, before anything is timed.
template <size_t A> void rehearse(const std::vector<Town<A>> &few)
{
    Town<A> town = tied<A>();
    for (const char *stops : {"track", "spread"})
        for (size_t n : {1, 100})
            for (uint32_t k : {1, 2, 8, 64})
                for (BlockCheck check : {c_block_check, c_block_check_lanes})
                    try_cell(town, stops, n, k, check);
    try_order(town);
    for (const Town<A> &t : few) {
        try_cell(t, "track", 10, 64, c_block_check);
        try_order(t);
    }
}

// The block check, the margin and the level, against C.

template <size_t A> struct Triple {
    int32_t v[6 * A];
};

template <class F, size_t A, size_t... i> int64_t margin_of(F f, const Triple<A> &t, std::index_sequence<i...>)
{
    return f(t.v[i]...);
}

template <class F, size_t A> int64_t margin_of(F f, const Triple<A> &t)
{
    return margin_of(f, t, std::make_index_sequence<6 * A>());
}

// O around the track, E and B every 15th tile: as a strike call asks.
template <size_t A> std::vector<Triple<A>> tile_pairs(const Town<A> &town)
{
    Stops<A> s = track(town, 256);
    Directory<A> dir = read_directory<A>(town.file, c_block_check);
    std::vector<Triple<A>> list;
    for (size_t b = 0; b < dir.tiles(); b += 15)
        for (size_t e = 0; e < dir.tiles(); e += 15) {
            Triple<A> t;
            for (size_t a = 0; a < A; a++) {
                auto [low, high] = std::minmax_element(s[a].begin(), s[a].end());
                const Span ends[] = {{*low, *high}, dir.box[e][a], dir.box[b][a]};
                for (size_t i = 0; i < 3; i++) {
                    t.v[2 * (A * i + a)] = ends[i].low;
                    t.v[2 * (A * i + a) + 1] = ends[i].high;
                }
            }
            list.push_back(t);
        }
    return list;
}

void write_ns(const std::string &what, std::vector<Runner> runners, size_t calls)
{
    measure(runners, 100000);
    std::printf("%-45s", what.c_str());
    for (Runner &r : runners) {
        std::printf("  %s %.2f ns", r.name.c_str(), r.best * 1000 / calls);
        std::fprintf(results, "ns\t%s\t%s\t%.4f\n", what.c_str(), r.name.c_str(), r.best * 1000 / calls);
    }
    std::printf("\n");
}

void measure_check(const Town<2> &town)
{
    const Bytes &f = town.file;
    size_t blocks = f.size() / BLOCK;
    Bytes bad = f;
    for (size_t i = 0; i < bad.size(); i += 777)
        bad[i] ^= 1 << i % 8;
    Bytes large(f.size(), 0xFF); // the sums get as large as they can; FF and 00 are alike, so the check is 0, 0
    for (size_t b = 0; b < blocks; b++) {
        large[b * BLOCK] = f[0];
        large[b * BLOCK + 510] = large[b * BLOCK + 511] = b % 2;
    }
    for (const Bytes *file : {&f, static_cast<const Bytes *>(&bad), static_cast<const Bytes *>(&large)})
        for (size_t b = 0; b < blocks; b++) {
            const uint8_t *p = &(*file)[b * BLOCK];
            uint32_t want = nearby_block_check(p, BLOCK);
            for (BlockCheck check : {c_block_check, c_block_check_16, c_block_check_late, c_block_check_lanes})
                if (check(p, BLOCK) != want)
                    fail("block checks differ");
        }
    volatile uint64_t sink = 0;
    auto over_blocks = [&](BlockCheck check) {
        return [&, check] {
            uint64_t sum = 0;
            for (size_t b = 0; b < blocks; b++)
                sum += check(&f[b * BLOCK], BLOCK);
            sink = sink + sum;
        };
    };
    std::vector<Runner> checks{{"proved", over_blocks(nearby_block_check)},
                               {"c", over_blocks(c_block_check)},
                               {"c-16", over_blocks(c_block_check_16)},
                               {"c-late", over_blocks(c_block_check_late)},
                               {"c-lanes", over_blocks(c_block_check_lanes)}};
    write_ns("block check", checks, blocks);
}

// `proved` and `c` take the same numbers; `named` says which margin it is.
template <size_t A, class F> void measure_margin(const Town<A> &town, const std::string &named, F proved, F c)
{
    std::mt19937_64 rng(7);
    std::vector<Triple<A>> mixed(4096);
    for (Triple<A> &t : mixed)
        for (size_t i = 0; i < 6 * A; i += 2) {
            int32_t a = int32_t(rng() % 2000001) - 1000000, w = int32_t(rng() % 200000);
            t.v[i] = a;
            t.v[i + 1] = std::min(a + w, 1000000);
        }
    std::vector<Triple<A>> same(4096, mixed[0]), pairs = tile_pairs(town);
    for (Triple<A> t : mixed)
        for (int bad_at = -1; bad_at < int(6 * A); bad_at++) {
            if (bad_at >= 0)
                t.v[bad_at] = 1000001;
            if (margin_of(proved, t) != margin_of(c, t))
                fail("margins differ");
        }
    volatile uint64_t sink = 0;
    auto over_triples = [&](const std::vector<Triple<A>> &list, F f) {
        return [&, f] {
            uint64_t sum = 0;
            for (const Triple<A> &t : list)
                sum += uint64_t(margin_of(f, t));
            sink = sink + sum;
        };
    };
    using Named = std::pair<const char *, const std::vector<Triple<A>> &>;
    for (const auto &[what, list] : {Named(", tile pairs of the grid", pairs), Named(", random boxes", mixed),
                                     Named(", one triple again", same)}) {
        std::vector<Runner> margins{{"proved", over_triples(list, proved)}, {"c", over_triples(list, c)}};
        write_ns(named + what, margins, list.size());
    }
}

struct Pair {
    uint32_t reach;
    uint64_t dist;
};

// The quotient and nothing else: no call, no tests, for a place that is not silent.
inline double bare_level(const Pair &p)
{
    int64_t square = int64_t(p.reach) * p.reach;
    return double(square) / double(square + int64_t(p.dist));
}

bool same_bits(double a, double b)
{
    return std::memcmp(&a, &b, sizeof a) == 0;
}

bool same_level(const Pair &p)
{
    nearby_leveled a = nearby_level(p.reach, p.dist), b = c_level(p.reach, p.dist);
    return a.number == b.number && a.silent == b.silent && same_bits(a.level, b.level);
}

void measure_level()
{
    std::mt19937_64 rng(11);
    std::vector<Pair> pairs(4096);
    for (Pair &p : pairs) {
        p.reach = 1 + uint32_t(rng() % NEARBY_MAX_REACH);
        uint64_t limit = 100 * uint64_t(p.reach) * p.reach;
        p.dist = rng() % (limit + 1);
        nearby_leveled level = nearby_level(p.reach, p.dist);
        if (level.number != NEARBY_OK || level.silent || !same_bits(level.level, bare_level(p)))
            fail("the level is not the quotient");
        // The same place; the last that is not silent, and the next; any; a reach beyond the limits.
        for (const Pair &q : {p, Pair{p.reach, limit}, Pair{p.reach, limit + 1}, Pair{p.reach, rng()},
                              Pair{0, p.dist}, Pair{p.reach + NEARBY_MAX_REACH, p.dist}})
            if (!same_level(q))
                fail("levels differ");
    }
    auto proved = [](const Pair &p) { return nearby_level(p.reach, p.dist).level; };
    auto in_c = [](const Pair &p) { return c_level(p.reach, p.dist).level; };
    auto bare = [](const Pair &p) { return bare_level(p); };
    std::vector<double> kept(pairs.size());
    auto each_kept = [&](auto level) {
        return [&, level] {
            for (size_t i = 0; i < pairs.size(); i++)
                kept[i] = level(pairs[i]);
            asm volatile("" : : "r"(kept.data()) : "memory"); // they are wanted
        };
    };
    write_ns("level", {{"proved", each_kept(proved)}, {"c", each_kept(in_c)}, {"bare", each_kept(bare)}}, pairs.size());
    volatile double sink = 0;
    auto added_up = [&](auto level) {
        return [&, level] {
            double sum = 0;
            for (const Pair &p : pairs)
                sum += level(p);
            sink = sink + sum;
        };
    };
    write_ns("level, added up", {{"proved", added_up(proved)}, {"c", added_up(in_c)}, {"bare", added_up(bare)}},
             pairs.size());
}

// Reading alone: every block checked and decoded, as (b), (c), (d) do first.
template <size_t A> void measure_reading(const Town<A> &town)
{
    std::vector<Runner> r{{"paper's check", [&] { read_sites<A>(town.file, c_block_check); }},
                          {"quickest check", [&] { read_sites<A>(town.file, c_block_check_lanes); }}};
    measure(r);
    std::printf("\nReading all of %s:", town.name.c_str());
    for (Runner &x : r) {
        std::printf("  %s %.1f us", x.name.c_str(), x.best);
        std::fprintf(results, "read\t%s\t%s\t%.4f\n", town.name.c_str(), x.name.c_str(), x.best);
    }
    std::printf("\n");
}

void measure_growth()
{
    header("Growth");
    for (size_t tiles : {24, 48, 96, 192, 384, 768, 960})
        measure_cell("growth-T", grid(tiles, 40), "track", 64, 8);
    Town<2> town = grid(960, 40);
    for (size_t n = 1; n <= 256; n *= 2)
        measure_cell("growth-n", town, "track", n, 8);
    for (uint32_t k = 1; k <= 64; k *= 2)
        measure_cell("growth-k", town, "track", 64, k);
}

void measure_stack(const Town<2> &town, const Town<3> &high)
{
    Lists lists(256 * 64);
    Order order(NEARBY_MAX_TILES);
    std::vector<uint8_t> marks(960), out(Format<3>::LONGEST);
    Stops<2> stops = track(town, 256);
    Stops<3> climbing = track(high, 256);
    Query<2> q{town.file, stops, 64};
    Query<3> q3{high.file, climbing, 64};
    Engine engine;
    const Bytes &f = town.file, &g = high.file;
    // A small town for the writer; its stack does not hang on the lists.
    std::vector<int32_t> boxes{0, 0, 9, 9}, boxes3{0, 0, 0, 9, 9, 9}, x(40, 5), y(40, 6), z(40, 7);
    std::vector<uint32_t> counts{40}, counts3{30}, cues(40, 7);
    std::vector<std::pair<const char *, std::function<void()>>> calls{
        {"(an empty call)", [] {}},
        {"nearby_join", [&] { engine.run(q, lists); }},
        {"nearby_join3", [&] { engine.run(q3, lists); }},
        {"nearby_prune",
         [&] { nearby_prune(f.data(), f.size(), -100, 100, -100, 100, 64, marks.data(), marks.size()); }},
        {"nearby_prune3",
         [&] { nearby_prune3(g.data(), g.size(), -100, 100, -100, 100, 0, 100, 64, marks.data(), marks.size()); }},
        {"nearby_stream_order", [&] { engine_order(f, town.extent, order); }},
        {"nearby_stream_order3", [&] { engine_order(g, high.extent, order); }},
        {"nearby_validate", [&] { nearby_validate(f.data(), f.size()); }},
        {"nearby_validate, with height", [&] { nearby_validate(g.data(), g.size()); }},
        {"nearby_write",
         [&] {
             nearby_write(boxes.data(), 4, counts.data(), 1, x.data(), 40, y.data(), 40, cues.data(), 40, out.data(),
                          out.size());
         }},
        {"nearby_write3",
         [&] {
             nearby_write3(boxes3.data(), 6, counts3.data(), 1, x.data(), 30, y.data(), 30, z.data(), 30, cues.data(),
                           30, out.data(), out.size());
         }},
        {"nearby_block_check", [&] { nearby_block_check(f.data(), BLOCK); }},
        {"nearby_margin", [&] { nearby_margin(0, 1, 0, 1, 2, 3, 2, 3, 4, 5, 4, 5); }},
        {"nearby_margin3", [&] { nearby_margin3(0, 1, 0, 1, 0, 1, 2, 3, 2, 3, 2, 3, 4, 5, 4, 5, 4, 5); }},
        {"nearby_level", [&] { nearby_level(1000, 1234567); }},
    };
    std::printf("\nStack written, in bytes, frames of the measure included\n");
    for (auto &[name, call] : calls) {
        size_t used = stack_used(call);
        std::printf("%-30s %zu\n", name, used);
        std::fprintf(results, "stack\t%s\t%zu\n", name, used);
    }
}

int repeat(std::vector<Runner> runners, const std::string &name, double seconds)
{
    for (Runner &r : runners) {
        if (r.name != name)
            continue;
        size_t runs = 0;
        double spent = 0, best = 1e18;
        for (; spent < seconds * 1e6; runs++) {
            double us = microseconds(r.run);
            spent += us;
            best = std::min(best, us);
        }
        std::printf("%zu runs, best %.1f us, mean %.1f us\n", runs, best, spent / runs);
        return 0;
    }
    fail("no runner " + name);
}

template <size_t A> int one(const Town<A> &town, char **v)
{
    if (std::string(v[1]) == "order") {
        OrderCell<A> cell(town, v[4]);
        return repeat(cell.runners(), v[2], std::atof(v[5]));
    }
    Cell<A> cell(town, v[4], size_t(std::atoi(v[5])), uint32_t(std::atoi(v[6])));
    return repeat(cell.runners(), v[2], std::atof(v[7]));
}

int one(char **v)
{
    for (const Town<2> &t : {grid(960, 40), grid(960, 8), clustered(), overlapping(), alike()})
        if (t.name == v[3])
            return one(t, v);
    Town<3> high = storeys(960, 30);
    if (high.name == v[3])
        return one(high, v);
    fail("no town " + std::string(v[3]));
}

} // namespace

int main(int c, char **v)
{
    if ((c == 8 && std::string(v[1]) == "one") || (c == 6 && std::string(v[1]) == "order"))
        return one(v);
    if (c != 2)
        fail("usage: bench RESULTS, or bench one RUNNER TOWN STOPS N K SECONDS, or bench order RUNNER TOWN O SECONDS");
    results = std::fopen(v[1], "w");
    if (!results)
        fail("cannot write " + std::string(v[1]));
    rehearse<2>({grid(4, 0), grid(4, 1), grid(4, 3)});
    rehearse<3>({storeys(6, 0), storeys(6, 1), storeys(6, 3)});
    Town<2> town = grid(960, 40);
    Town<3> high = storeys(960, 30);
    for (int pass = 1; pass <= 2; pass++) {
        std::printf("\nPass %d of 2\n", pass);
        measure_inputs(town, high);
        measure_reading(town);
        measure_reading(high);
        std::printf("\nBlock check, margin and level alone\n");
        measure_check(town);
        measure_margin(town, "margin", nearby_margin, c_margin);
        measure_margin(high, "margin with height", nearby_margin3, c_margin3);
        measure_level();
        measure_growth();
        measure_orders(town, high);
    }
    measure_stack(town, high);
    if (std::fclose(results) != 0)
        fail("cannot write " + std::string(v[1]));
}
