// (d) Boost.Geometry's R-tree over all sounding sites, built at once by its packing constructor. A query for k sites
// keeps an arbitrary one of those that tie at place k, so we ask for one more: if it is farther than place k, the list
// is exact; else we ask for twice as many, until one is farther or all of them are had.
#include "peers.hpp"
#include <boost/geometry.hpp>
#include <boost/geometry/geometries/point.hpp>
#include <boost/geometry/index/rtree.hpp>

namespace bg = boost::geometry;
namespace bgi = boost::geometry::index;

namespace {

double square(double d) { return d * d; }

template <size_t A, size_t NODE> class RTree : public Index<A> {
public:
    RTree(const Bytes &file, BlockCheck check) : sites_(read_sites<A>(file, check)), tree_(entries(sites_)) {}

    void ask(const Query<A> &q, Lists &out) const override
    {
        std::vector<Entry> found;
        std::vector<Place<A>> places;
        Best<A> best(q.k);
        for (size_t i = 0; i < q.stops(); i++) {
            auto stop = made<Point, A>([&](size_t a) { return double(q.at[a][i]); });
            for (size_t wanted = q.k + 1;; wanted *= 2) {
                found.clear();
                tree_.query(bgi::nearest(stop, unsigned(wanted)), std::back_inserter(found));
                places.clear();
                for (const Entry &e : found) {
                    double dist = sum<A>([&](auto a) { return square(bg::get<a>(e.first) - bg::get<a>(stop)); });
                    places.push_back({uint64_t(dist), sites_.site[e.second], sites_.cue[e.second]});
                }
                std::sort(places.begin(), places.end());
                if (places.size() < wanted || places.back().dist > places[q.k - 1].dist)
                    break;
            }
            best.clear();
            for (const Place<A> &p : places)
                best.add(p);
            best.put(out, i);
        }
    }

private:
    using Point = bg::model::point<double, A, bg::cs::cartesian>;
    using Entry = std::pair<Point, uint32_t>;

    static std::vector<Entry> entries(const Sites<A> &s)
    {
        std::vector<Entry> v;
        v.reserve(s.size());
        for (size_t j = 0; j < s.size(); j++)
            v.emplace_back(made<Point, A>([&](size_t a) { return s.at[a][j]; }), uint32_t(j));
        return v;
    }

    Sites<A> sites_;
    bgi::rtree<Entry, bgi::linear<NODE>> tree_;
};

} // namespace

// Entries in a node. On the 960 x 40 grid with n = 256, k = 8, of 4 to 128: from 64 on the whole call is quickest,
// within the noise; with the tree ready, questions are quicker with 16 than with 64. With height the sizes are the
// same.
template <size_t A> std::unique_ptr<Index<A>> boost_rtree(const Bytes &file, BlockCheck check, Use use)
{
    if (use == Use::ONCE)
        return std::make_unique<RTree<A, 64>>(file, check);
    return std::make_unique<RTree<A, 16>>(file, check);
}

template std::unique_ptr<Index<2>> boost_rtree<2>(const Bytes &, BlockCheck, Use);
template std::unique_ptr<Index<3>> boost_rtree<3>(const Bytes &, BlockCheck, Use);
