// The same problem as one dense system: the information matrix of all keys is summed from the stored factors, factored by
// Eigen's LLT and inverted. Compiled twice, for processors with and without wide vectors, under two names.
#include <Eigen/Dense>
#include <cstddef>
#include <cstdint>

namespace {
using Matrix = Eigen::MatrixXd;
using Vector = Eigen::VectorXd;

// One stored factor: a prior has no A. Its columns go to the components that `at` names, from `first` on.
struct Factor {
    const double *a, *xi, *w;
    std::int32_t rows, columns;
    const std::int32_t *at;
};

// Local to this compilation, so that the two stay apart.
struct Problem {
    Matrix information, inverse, product, part, wide;
    Vector sum, mean, narrow;
};
}

extern "C" std::int32_t CALL(const Factor *factors, std::size_t count, std::int32_t n, double *mean, double *covariance) {
    static thread_local Problem p;
    p.information.setZero(n, n);
    p.sum.setZero(n);
    for (std::size_t f = 0; f < count; ++f) {
        const Factor &g = factors[f];
        Eigen::Map<const Matrix> w(g.w, g.rows, g.rows);
        Eigen::Map<const Vector> xi(g.xi, g.rows);
        if (g.a) {
            Eigen::Map<const Matrix> a(g.a, g.rows, g.columns);
            p.product.noalias() = w.lazyProduct(a);
            p.part.noalias() = a.transpose().lazyProduct(p.product);
            p.narrow.noalias() = a.transpose().lazyProduct(xi);
        } else {
            p.part = w;
            p.narrow = xi;
        }
        for (std::int32_t j = 0; j < g.columns; ++j) {
            p.sum[g.at[j]] += p.narrow[j];
            for (std::int32_t i = 0; i < g.columns; ++i) p.information(g.at[i], g.at[j]) += p.part(i, j);
        }
    }
    Eigen::LLT<Eigen::Ref<Matrix>> llt(p.information);
    if (llt.info() != Eigen::Success) return 1;
    Eigen::Map<Vector>(mean, n) = llt.solve(p.sum);
    p.inverse.setIdentity(n, n);
    llt.solveInPlace(p.inverse);
    Eigen::Map<Matrix>(covariance, n, n) = p.inverse;
    return 0;
}
