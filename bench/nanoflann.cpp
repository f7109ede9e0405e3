// (c) nanoflann's k-d tree over all sounding sites. Its own result set keeps an arbitrary one of the sites that tie at
// place k; ours ranks by distance, then site, and asks for sites up to and including the worst distance, so one search
// gives the exact list.
#include "peers.hpp"
#include <limits>
#include <nanoflann.hpp>

namespace {

template <size_t A> struct Cloud {
    const Sites<A> &s;
    size_t kdtree_get_point_count() const { return s.size(); }
    // A choice and no index: for two axes this compiles to one comparison.
    double kdtree_get_pt(uint32_t i, size_t axis) const
    {
        return axis == 0 ? s.at[0][i] : A == 2 || axis == 1 ? s.at[1][i] : s.at[A - 1][i];
    }
    template <class B> bool kdtree_get_bbox(B &) const { return false; }
};

template <size_t A> class Ranked {
public:
    using DistanceType = double;
    Ranked(const Sites<A> &s, uint32_t k) : s_(s), best_(k) {}
    void clear() { best_.clear(); }
    size_t size() const { return best_.size(); }
    bool full() const { return best_.full(); }
    bool addPoint(double dist, uint32_t i)
    {
        best_.add({uint64_t(dist), s_.site[i], s_.cue[i]});
        return true;
    }
    // nanoflann takes what is below this. Distances are whole numbers.
    double worstDist() const { return full() ? double(best_.last().dist) + 1 : std::numeric_limits<double>::max(); }
    const Best<A> &best() const { return best_; }

private:
    const Sites<A> &s_;
    Best<A> best_;
};

template <size_t A> using Distance = nanoflann::L2_Simple_Adaptor<double, Cloud<A>, double, uint32_t>;
template <size_t A> using Tree = nanoflann::KDTreeSingleIndexAdaptor<Distance<A>, Cloud<A>, A, uint32_t>;

template <size_t A> class KdTree : public Index<A> {
public:
    KdTree(const Bytes &file, BlockCheck check, size_t leaf)
        : sites_(read_sites<A>(file, check)), cloud_{sites_},
          tree_(A, cloud_, nanoflann::KDTreeSingleIndexAdaptorParams(leaf))
    {
    }

    void ask(const Query<A> &q, Lists &out) const override
    {
        Ranked<A> ranked(sites_, q.k);
        for (size_t i = 0; i < q.stops(); i++) {
            auto p = stop_at<double>(q, i);
            ranked.clear();
            tree_.findNeighbors(ranked, p.data(), nanoflann::SearchParams());
            ranked.best().put(out, i);
        }
    }

private:
    Sites<A> sites_;
    Cloud<A> cloud_;
    Tree<A> tree_;
};

} // namespace

// Sites in a leaf. On the 960 x 40 grid with n = 256, k = 8, of 8 to 256: from 64 on the whole call is quickest, within
// the noise; with the tree ready, questions are quicker with 16 than with 64. With height the sizes are the same.
template <size_t A> std::unique_ptr<Index<A>> nanoflann_tree(const Bytes &file, BlockCheck check, Use use)
{
    return std::make_unique<KdTree<A>>(file, check, use == Use::ONCE ? 64 : 16);
}

template std::unique_ptr<Index<2>> nanoflann_tree<2>(const Bytes &, BlockCheck, Use);
template std::unique_ptr<Index<3>> nanoflann_tree<3>(const Bytes &, BlockCheck, Use);
