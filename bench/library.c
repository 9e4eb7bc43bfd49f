/* Projections and convex hulls by isl (libisl.so.23), for library.py. Its functions are declared here, as the package with its headers need not be there.

   cc -O2 -o library bench/library.c -l:libisl.so.23

   Standard input has numbers: for a projection `0 DIMS COUNT VAR ..` and a system, for a hull `1 DIMS` and two systems. A system is the number of its rows and
   each row `EQUAL BOUND TERMS VAR FACTOR ..`: the sum of the terms is the bound, or at most the bound. */
#include <stdio.h>

enum { SET = 3 };
void *isl_ctx_alloc(void);
void *isl_space_set_alloc(void *, unsigned, unsigned);
void *isl_space_copy(void *);
void *isl_space_free(void *);
void *isl_local_space_from_space(void *);
void *isl_local_space_copy(void *);
void *isl_local_space_free(void *);
void *isl_basic_set_universe(void *);
void *isl_constraint_alloc_equality(void *);
void *isl_constraint_alloc_inequality(void *);
void *isl_constraint_set_constant_si(void *, int);
void *isl_constraint_set_coefficient_si(void *, int, int, int);
void *isl_basic_set_add_constraint(void *, void *);
void *isl_basic_set_project_out(void *, int, unsigned, unsigned);
void *isl_basic_set_remove_divs(void *);
void *isl_basic_set_remove_redundancies(void *);
void *isl_basic_set_free(void *);
void *isl_set_from_basic_set(void *);
void *isl_set_union(void *, void *);
void *isl_set_convex_hull(void *);

static int number(void)
{
    int n = -1;
    if (scanf("%d", &n) != 1) return -1;
    return n;
}

static void *system_of(void *space)
{
    void *set = isl_basic_set_universe(isl_space_copy(space));
    void *local = isl_local_space_from_space(isl_space_copy(space));
    for (int rows = number(); rows > 0; rows--) {
        int equal = number(), bound = number(), sign = equal ? 1 : -1;
        void *row = equal ? isl_constraint_alloc_equality(isl_local_space_copy(local)) : isl_constraint_alloc_inequality(isl_local_space_copy(local));
        row = isl_constraint_set_constant_si(row, equal ? -bound : bound);
        for (int terms = number(); terms > 0; terms--) {
            int var = number(), factor = number();
            row = isl_constraint_set_coefficient_si(row, SET, var, sign * factor);
        }
        set = isl_basic_set_add_constraint(set, row);
    }
    isl_local_space_free(local);
    return set;
}

static void *projection(void *space)
{
    static int gone[4096];
    int count = number();
    for (int k = 0; k < count; k++) gone[k] = number();
    void *set = system_of(space);
    /* descending, so that the numbers of those that are left to do stay */
    for (int k = count - 1; k >= 0; k--) set = isl_basic_set_project_out(set, SET, gone[k], 1);
    return isl_basic_set_remove_redundancies(isl_basic_set_remove_divs(set));
}

static void *hull(void *space)
{
    void *one = isl_set_from_basic_set(system_of(space));
    void *other = isl_set_from_basic_set(system_of(space));
    return isl_set_convex_hull(isl_set_union(one, other));
}

int main(void)
{
    void *ctx = isl_ctx_alloc();
    int done = 0;
    for (int kind = number(); kind >= 0; kind = number()) {
        void *space = isl_space_set_alloc(ctx, 0, number());
        isl_basic_set_free(kind == 0 ? projection(space) : hull(space));
        isl_space_free(space);
        done++;
    }
    printf("%d\n", done);
    return 0;
}
