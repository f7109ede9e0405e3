// (b) A full search: all squared distances of a stop, then one pass over them that keeps the k best. The first loop has
// no branch, so that the compiler can use vector instructions. Sites come in the order of tile and slot, so a site that
// ties with the last of a full list never enters.
#include "peers.hpp"

namespace {

double square(double d) { return d * d; }

template <size_t A> class FullSearch : public Index<A> {
public:
    FullSearch(const Bytes &file, BlockCheck check) : sites_(read_sites<A>(file, check)) {}

    void ask(const Query<A> &q, Lists &out) const override
    {
        size_t n = sites_.size();
        std::vector<double> dist(n);
        Best<A> best(q.k);
        for (size_t i = 0; i < q.stops(); i++) {
            auto p = stop_at<double>(q, i);
            for (size_t j = 0; j < n; j++)
                dist[j] = sum<A>([&](size_t a) { return square(sites_.at[a][j] - p[a]); });
            best.clear();
            double worst = 1e18;
            for (size_t j = 0; j < n; j++) {
                if (dist[j] < worst) {
                    best.add({uint64_t(dist[j]), sites_.site[j], sites_.cue[j]});
                    if (best.full())
                        worst = double(best.last().dist);
                }
            }
            best.put(out, i);
        }
    }

private:
    Sites<A> sites_;
};

} // namespace

template <size_t A> std::unique_ptr<Index<A>> full_search(const Bytes &file, BlockCheck check, Use)
{
    return std::make_unique<FullSearch<A>>(file, check);
}

template std::unique_ptr<Index<2>> full_search<2>(const Bytes &, BlockCheck, Use);
template std::unique_ptr<Index<3>> full_search<3>(const Bytes &, BlockCheck, Use);
