// What the peers have in common: the question, the answer, and the list of the k best. Each peer is one text for plan
// towns and those with height, compiled for 2 and for 3 axes.
#pragma once
#include "reading.hpp"
#include <algorithm>
#include <memory>

template <size_t A> using Stops = std::array<std::vector<int32_t>, A>; // the coordinates, axis by axis

template <size_t A> struct Query {
    const Bytes &file;
    const Stops<A> &at;
    uint32_t k;
    size_t stops() const { return at[0].size(); }
};

template <class T, size_t A> std::array<T, A> stop_at(const Query<A> &q, size_t i)
{
    return made<std::array<T, A>, A>([&](size_t a) { return T(q.at[a][i]); });
}

// Place j of stop i at i * k + j. Made before the clock starts.
struct Lists {
    std::vector<uint64_t> dist;
    std::vector<uint32_t> site, cue;
    explicit Lists(size_t places) : dist(places), site(places), cue(places) {}
    bool operator==(const Lists &o) const { return dist == o.dist && site == o.site && cue == o.cue; }
};

// With A as a parameter, so that what is compiled for one number of axes shares nothing with the other.
template <size_t A> struct Place {
    uint64_t dist;
    uint32_t site, cue;
    bool operator<(const Place &o) const { return dist != o.dist ? dist < o.dist : site < o.site; }
};

// The k best places seen, sorted; the site number orders by tile, then slot.
template <size_t A> class Best {
public:
    explicit Best(uint32_t k) : k_(k) { places_.reserve(k); }
    void clear() { places_.clear(); }
    bool full() const { return places_.size() == k_; }
    size_t size() const { return places_.size(); }
    const Place<A> &last() const { return places_.back(); }
    void add(const Place<A> &p)
    {
        if (full()) {
            if (!(p < last()))
                return;
            places_.pop_back();
        }
        places_.insert(std::upper_bound(places_.begin(), places_.end(), p), p);
    }
    // To the list of stop i; unused places become 0.
    void put(Lists &out, size_t i) const
    {
        for (size_t j = 0; j < k_; j++) {
            Place<A> p = j < places_.size() ? places_[j] : Place<A>{0, 0, 0};
            out.dist[i * k_ + j] = p.dist;
            out.site[i * k_ + j] = p.site;
            out.cue[i * k_ + j] = p.cue;
        }
    }

private:
    size_t k_;
    std::vector<Place<A>> places_;
};

// A file made ready to be asked (every block checked and decoded, the index built).
template <size_t A> class Index {
public:
    virtual ~Index() = default;
    virtual void ask(const Query<A> &q, Lists &out) const = 0;
};

// Built for one call, or to be asked again and again: the sizes of leaves and nodes are chosen for it.
enum class Use { ONCE, AGAIN };

template <size_t A> std::unique_ptr<Index<A>> full_search(const Bytes &file, BlockCheck check, Use use);
template <size_t A> std::unique_ptr<Index<A>> nanoflann_tree(const Bytes &file, BlockCheck check, Use use);
template <size_t A> std::unique_ptr<Index<A>> boost_rtree(const Bytes &file, BlockCheck check, Use use);

struct PaperCounts {
    uint32_t opened, struck;
};

// The paper's own algorithm: no index, and only the tiles that it opens are read. Written down plainly, and tuned.
template <size_t A> PaperCounts paper(const Query<A> &q, BlockCheck check, Lists &out);
template <size_t A> PaperCounts tuned_paper(const Query<A> &q, BlockCheck check, Lists &out);
