// What a programmer would pick: Eigen's conjugate gradients, on the matrix J M^-1 J^T formed as a sparse product, with a
// diagonal preconditioner (mode 0) or its incomplete Cholesky factor (mode 1). No refusals, no closing check, no promise of
// bits; rows as document 01 lays them out. For oracle/run bench-eigen.
#include <Eigen/IterativeLinearSolvers>
#include <Eigen/SparseCore>
#include <cstdint>
#include <vector>

namespace {

using Matrix = Eigen::SparseMatrix<double>;
using Vector = Eigen::VectorXd;
using Triplets = std::vector<Eigen::Triplet<double>>;

// linear_a and angular_a stand at 0 and 3 of a row's 27 numbers, linear_b and angular_b at 9 and 12; its bodies at 2 and 3 of 8 words.
Matrix jacobian(const double *numbers, const std::uint32_t *words, std::uint32_t rows, std::uint32_t bodies) {
    Triplets cells;
    cells.reserve(12 * rows);
    for (std::uint32_t row = 0; row < rows; row++)
        for (int arm = 0; arm < 2; arm++)
            for (int part = 0; part < 6; part++)
                cells.emplace_back(row, 6 * words[8 * row + 2 + arm] + part, numbers[27 * row + 9 * arm + part]);
    Matrix made(rows, 6 * bodies);
    made.setFromTriplets(cells.begin(), cells.end());
    return made;
}

Matrix inverse_masses(const double *masses, std::uint32_t bodies) {
    Triplets cells;
    cells.reserve(12 * bodies);
    for (std::uint32_t body = 0; body < bodies; body++) {
        const double *mass = masses + 10 * body;
        for (int i = 0; i < 3; i++) {
            cells.emplace_back(6 * body + i, 6 * body + i, mass[0]);
            for (int j = 0; j < 3; j++)
                cells.emplace_back(6 * body + 3 + i, 6 * body + 3 + j, mass[1 + 3 * j + i]);
        }
    }
    Matrix made(6 * bodies, 6 * bodies);
    made.setFromTriplets(cells.begin(), cells.end());
    return made;
}

template <class Preconditioner>
std::uint32_t solved(const Matrix &matrix, const Vector &wanted, double tolerance, std::uint32_t limit, double *solution) {
    Eigen::ConjugateGradient<Matrix, Eigen::Lower | Eigen::Upper, Preconditioner> gradients;
    gradients.setMaxIterations(limit);
    gradients.setTolerance(tolerance / wanted.norm()); // its tolerance is relative, by the Euclidean norm
    gradients.compute(matrix);
    Vector::Map(solution, wanted.size()) = gradients.solve(wanted);
    return static_cast<std::uint32_t>(gradients.iterations());
}

} // namespace

// The number of steps that it took.
extern "C" std::uint32_t eigen_solve(const double *numbers, const std::uint32_t *words, const double *masses,
                                     std::uint32_t rows, std::uint32_t bodies, double tolerance, std::uint32_t limit,
                                     std::uint32_t mode, double *solution) {
    const Matrix arms = jacobian(numbers, words, rows, bodies);
    const Matrix matrix = arms * inverse_masses(masses, bodies) * arms.transpose();
    Vector wanted(rows);
    for (std::uint32_t row = 0; row < rows; row++)
        wanted[row] = -numbers[27 * row + 15];
    return mode == 0 ? solved<Eigen::DiagonalPreconditioner<double>>(matrix, wanted, tolerance, limit, solution)
                     : solved<Eigen::IncompleteCholesky<double>>(matrix, wanted, tolerance, limit, solution);
}
