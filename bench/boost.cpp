// The certificate's formula (document 01, "The certified figure", at depth 0) with Boost.Interval, whose sums, products and
// quotients are rounded by the processor, downward and upward. It is compared in time alone: its ends are at most as far
// apart as the certificate's. The powers of U and W, b - a, D and L are computed once for each intersection, as a C++
// programmer would.
#include <boost/numeric/interval.hpp>
#include <cmath>
#include <cstddef>

namespace numeric = boost::numeric;
namespace interval_lib = numeric::interval_lib;

// The processor rounds upward all along; an end downward is minus the one upward of what is negated.
using Rounding = interval_lib::save_state<interval_lib::rounded_arith_opp<double>>;
using Policies = interval_lib::policies<Rounding, interval_lib::checking_base<double>>;
using Protected = numeric::interval<double, Policies>;
// The rounding is set once a call, not in each operation.
using Interval = interval_lib::unprotect<Protected>::type;

static const double choose[6][6] = {
    {1}, {1, 1}, {1, 2, 1}, {1, 3, 3, 1}, {1, 4, 6, 4, 1}, {1, 5, 10, 10, 5, 1},
};

static Interval power(const double *p, const Interval *u, const Interval &w, int j) {
    Interval sum(0.0);
    for (int k = j; k < 6; k++) sum += Interval(choose[k][j]) * Interval(p[k]) * u[k - j];
    return sum * w;
}

static double figure(double a, double b, const double *p, double left, double right, double from, double to, double first,
                     double second) {
    const Interval length = Interval(b) - Interval(a);
    const Interval offset = (Interval(left) - Interval(a)) / length;
    const Interval scale = (Interval(right) - Interval(left)) / length;
    Interval u[6], w[6];
    u[0] = w[0] = Interval(1.0);
    for (int k = 0; k < 5; k++) {
        u[k + 1] = u[k] * offset;
        w[k + 1] = w[k] * scale;
    }
    const Interval L = Interval(to) - Interval(from), D = Interval(second) - Interval(first);
    Interval q[6];
    for (int j = 0; j < 6; j++) q[j] = power(p, u, w[j], j);
    q[0] -= Interval(first) + (Interval(left) - Interval(from)) / L * D;
    q[1] -= (Interval(right) - Interval(left)) / L * D;
    double largest = 0;
    for (int k = 0; k < 6; k++) {
        Interval sum(0.0);
        for (int j = 0; j <= k; j++) sum += q[j] * Interval(choose[k][j]) / Interval(choose[5][j]);
        const double most = numeric::norm(sum);
        if (largest < most) largest = most;
    }
    return largest;
}

// The figure of an axis of a curve of d axes, all selected, against n waypoints with even parameters; the number of
// intersections is written to `pieces`.
extern "C" double boost_certify(const double *breaks, size_t segments, const double *coefficients, size_t d, size_t axis,
                                const double *points, size_t n, size_t *pieces) {
    const Protected::traits_type::rounding upward;
    double largest = 0;
    size_t met = 0;
    for (size_t i = 0, m = 0; i + 1 < n && m < segments;) {
        // computed with the rounding upward: a parameter may differ from the port's in its last bit
        const double from = double(i) / double(n - 1), to = double(i + 1) / double(n - 1);
        const double a = breaks[m], b = breaks[m + 1];
        const double left = a < from ? from : a, right = to < b ? to : b;
        if (left < right) {
            const double *p = coefficients + 6 * (m * d + axis);
            const double most = figure(a, b, p, left, right, from, to, points[i * d + axis], points[(i + 1) * d + axis]);
            if (largest < most) largest = most;
            met++;
        }
        if (b < to) m++; else i++;
    }
    *pieces = met;
    return largest;
}
