// Peers of the chains and of the sum from other libraries, each found by bench/run and named by a WITH_ macro, behind one C face for bench/peers.rs.
//
// A peer makes its own kind of list from the samples once, or of the two rings, which is not timed, and answers the corners of the outline as pairs of east and
// north, in any order.
#include <cstddef>
#include <cstdint>
#include <utility>
#include <vector>

#ifdef WITH_CGAL
#include <CGAL/Exact_predicates_inexact_constructions_kernel.h>
#include <CGAL/Polygon_nop_decomposition_2.h>
#include <CGAL/ch_bykat.h>
#include <CGAL/ch_graham_andrew.h>
#include <CGAL/minkowski_sum_2.h>
#include <CGAL/version.h>
#endif

#ifdef WITH_BOOST
#include <boost/geometry.hpp>
#include <boost/geometry/geometries/multi_point.hpp>
#include <boost/geometry/geometries/point_xy.hpp>
#include <boost/geometry/geometries/polygon.hpp>
#include <boost/version.hpp>
#endif

#ifdef WITH_GEOS
#include <geos_c.h>
#endif

#ifdef WITH_QHULL
extern "C" {
#include <libqhull_r/libqhull_r.h>
}
#endif

namespace {

// samples, or the corners of a ring
struct Sheet {
    const int32_t *east;
    const int32_t *north;
    size_t n;
};

struct Peer {
    const char *name;
    // of one sheet, or of two for a sum
    void *(*make)(const Sheet *sheets);
    // out has room for one corner more than all sheets have samples, two numbers each; the answer is their count
    size_t (*corners)(void *samples, double *out);
    void (*drop)(void *samples);
};

template <class List> void drop(void *samples) { delete static_cast<List *>(samples); }

#ifdef WITH_CGAL
using Kernel = CGAL::Exact_predicates_inexact_constructions_kernel;
using CgalList = std::vector<Kernel::Point_2>;

void *cgal_make(const Sheet *sheet) {
    auto *list = new CgalList;
    for (size_t i = 0; i < sheet->n; i++) list->emplace_back(sheet->east[i], sheet->north[i]);
    return list;
}

template <class List> size_t cgal_corners(const List &found, double *out) {
    for (const auto &corner : found) {
        *out++ = corner.x();
        *out++ = corner.y();
    }
    return found.size();
}

size_t graham_andrew(void *samples, double *out) {
    const auto &list = *static_cast<CgalList *>(samples);
    CgalList found;
    CGAL::ch_graham_andrew(list.begin(), list.end(), std::back_inserter(found));
    return cgal_corners(found, out);
}

size_t bykat(void *samples, double *out) {
    const auto &list = *static_cast<CgalList *>(samples);
    CgalList found;
    CGAL::ch_bykat(list.begin(), list.end(), std::back_inserter(found));
    return cgal_corners(found, out);
}

using CgalRing = CGAL::Polygon_2<Kernel>;
using CgalRings = std::pair<CgalRing, CgalRing>;

// CGAL goes round to the left, a ring to the right
CgalRing cgal_ring(const Sheet &ring) {
    CgalRing made;
    for (size_t i = ring.n; i > 0; i--) made.push_back(Kernel::Point_2(ring.east[i - 1], ring.north[i - 1]));
    return made;
}

void *cgal_make_rings(const Sheet *rings) { return new CgalRings(cgal_ring(rings[0]), cgal_ring(rings[1])); }

// As the rings are convex, they are not cut into convex parts first. CGAL asks for exact constructions in general; of whole numbers of this size sums are exact
// as they are, and nothing else is constructed.
size_t minkowski(void *rings, double *out) {
    const auto &[first, second] = *static_cast<CgalRings *>(rings);
    const CGAL::Polygon_nop_decomposition_2<Kernel> as_they_are;
    const auto sum = CGAL::minkowski_sum_2(first, second, as_they_are);
    return cgal_corners(sum.outer_boundary(), out);
}
#endif

#ifdef WITH_BOOST
namespace bg = boost::geometry;
using BoostPosition = bg::model::d2::point_xy<double>;
using BoostList = bg::model::multi_point<BoostPosition>;

void *boost_make(const Sheet *sheet) {
    auto *list = new BoostList;
    for (size_t i = 0; i < sheet->n; i++) list->push_back(BoostPosition(sheet->east[i], sheet->north[i]));
    return list;
}

size_t boost_corners(void *samples, double *out) {
    bg::model::polygon<BoostPosition> found;
    bg::convex_hull(*static_cast<BoostList *>(samples), found);
    // the first corner comes once more at the end
    const auto &ring = found.outer();
    size_t count = ring.empty() ? 0 : ring.size() - 1;
    for (size_t i = 0; i < count; i++) {
        *out++ = ring[i].x();
        *out++ = ring[i].y();
    }
    return count;
}
#endif

#ifdef WITH_GEOS
struct GeosList {
    GEOSContextHandle_t context;
    GEOSGeometry *list;
};

void *geos_make(const Sheet *sheet) {
    GEOSContextHandle_t context = GEOS_init_r();
    std::vector<GEOSGeometry *> each(sheet->n);
    for (size_t i = 0; i < sheet->n; i++) each[i] = GEOSGeom_createPointFromXY_r(context, sheet->east[i], sheet->north[i]);
    GEOSGeometry *list = GEOSGeom_createCollection_r(context, GEOS_MULTIPOINT, each.data(), static_cast<unsigned>(sheet->n));
    return new GeosList{context, list};
}

size_t geos_corners(void *samples, double *out) {
    auto [context, list] = *static_cast<GeosList *>(samples);
    GEOSGeometry *found = GEOSConvexHull_r(context, list);
    if (found == nullptr) return 0;
    unsigned count = 0;
    // three corners or more come as a polygon, the first corner once more at the end
    if (GEOSGeomTypeId_r(context, found) == GEOS_POLYGON) {
        const GEOSCoordSequence *ring = GEOSGeom_getCoordSeq_r(context, GEOSGetExteriorRing_r(context, found));
        GEOSCoordSeq_getSize_r(context, ring, &count);
        count--;
        for (unsigned i = 0; i < count; i++, out += 2) GEOSCoordSeq_getXY_r(context, ring, i, out, out + 1);
    }
    GEOSGeom_destroy_r(context, found);
    return count;
}

void geos_drop(void *samples) {
    auto *list = static_cast<GeosList *>(samples);
    GEOSGeom_destroy_r(list->context, list->list);
    GEOS_finish_r(list->context);
    delete list;
}
#endif

#ifdef WITH_QHULL
using QhullList = std::vector<coordT>;

void *qhull_make(const Sheet *sheet) {
    auto *list = new QhullList;
    for (size_t i = 0; i < sheet->n; i++) {
        list->push_back(sheet->east[i]);
        list->push_back(sheet->north[i]);
    }
    return list;
}

size_t qhull_corners(void *samples, double *out) {
    auto &list = *static_cast<QhullList *>(samples);
    qhT state;
    qhT *qh = &state;
    qh_zero(qh, stderr);
    char words[] = "qhull ";
    size_t count = 0;
    if (qh_new_qhull(qh, 2, static_cast<int>(list.size() / 2), list.data(), False, words, nullptr, stderr) == 0) {
        vertexT *vertex;
        FORALLvertices {
            *out++ = vertex->point[0];
            *out++ = vertex->point[1];
            count++;
        }
    }
    qh_freeqhull(qh, !qh_ALL);
    int left, pieces;
    qh_memfreeshort(qh, &left, &pieces);
    return count;
}
#endif

const std::vector<Peer> peers = {
#ifdef WITH_CGAL
    {"CGAL " CGAL_VERSION_STR " graham_andrew", cgal_make, graham_andrew, drop<CgalList>},
    {"CGAL " CGAL_VERSION_STR " bykat", cgal_make, bykat, drop<CgalList>},
#endif
#ifdef WITH_BOOST
    {"Boost " BOOST_LIB_VERSION, boost_make, boost_corners, drop<BoostList>},
#endif
#ifdef WITH_GEOS
    {"GEOS " GEOS_VERSION, geos_make, geos_corners, geos_drop},
#endif
#ifdef WITH_QHULL
    {"Qhull", qhull_make, qhull_corners, drop<QhullList>},
#endif
};

// GEOS and Qhull have no sum. Boost.Polygon has one of any two outlines among its details: it unites a figure for each two sides, which takes milliseconds for 16
// corners and seconds for 256, and rounds where they cross.
const std::vector<Peer> sum_peers = {
#ifdef WITH_CGAL
    {"CGAL " CGAL_VERSION_STR " minkowski_sum_2", cgal_make_rings, minkowski, drop<CgalRings>},
#endif
};

} // namespace

extern "C" const Peer *bench_peers(size_t *count) {
    *count = peers.size();
    return peers.data();
}

extern "C" const Peer *bench_sum_peers(size_t *count) {
    *count = sum_peers.size();
    return sum_peers.data();
}
