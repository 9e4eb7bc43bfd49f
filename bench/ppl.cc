/* Projections and convex hulls by the Parma Polyhedra Library (libppl-dev), for library.py.

   c++ -O2 -o ppl bench/ppl.cc -lppl -lgmpxx -lgmp

   Standard input is that of library.c. A projection removes dimensions from a closed polyhedron, a hull is the convex hull of two; each ends with the constraints without redundant ones. */
#include <cstdio>
#include <ppl.hh>

using namespace Parma_Polyhedra_Library;

static int number()
{
    int n = -1;
    return std::scanf("%d", &n) == 1 ? n : -1;
}

static C_Polyhedron system_of(int dimensions)
{
    C_Polyhedron set(dimensions);
    for (int rows = number(); rows > 0; rows--) {
        int equal = number(), bound = number();
        Linear_Expression sum;
        for (int terms = number(); terms > 0; terms--) {
            int var = number(), factor = number();
            sum += factor * Variable(var);
        }
        set.add_constraint(equal ? sum == bound : sum <= bound);
    }
    return set;
}

static C_Polyhedron projection(int dimensions)
{
    Variables_Set gone;
    for (int count = number(); count > 0; count--) gone.insert(Variable(number()));
    C_Polyhedron set = system_of(dimensions);
    set.remove_space_dimensions(gone);
    return set;
}

static C_Polyhedron hull(int dimensions)
{
    C_Polyhedron one = system_of(dimensions), other = system_of(dimensions);
    one.poly_hull_assign(other);
    return one;
}

int main()
{
    long done = 0, rows = 0;
    for (int kind = number(); kind >= 0; kind = number()) {
        int dimensions = number();
        C_Polyhedron set = kind == 0 ? projection(dimensions) : hull(dimensions);
        const Constraint_System &left = set.minimized_constraints();
        for (Constraint_System::const_iterator row = left.begin(); row != left.end(); ++row) rows++;
        done++;
    }
    std::printf("%ld %ld\n", done, rows);
    return 0;
}
