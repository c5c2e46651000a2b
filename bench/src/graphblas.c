// Relations as matrices of SuiteSparse:GraphBLAS, one thread: what the benchmark's column needs of it. A matrix is of Booleans, n by n; an operation
// frees its operands and gives a new matrix. Any failure of the library ends the program.
#include <GraphBLAS.h>
#include <stdint.h>
#include <stdio.h>
#include <stdlib.h>

#define TRY(call)                                                                                                      \
    do {                                                                                                               \
        GrB_Info info_ = (call);                                                                                       \
        if (info_ != GrB_SUCCESS) {                                                                                    \
            fprintf(stderr, "%s: GraphBLAS says %d\n", #call, (int)info_);                                             \
            exit(1);                                                                                                   \
        }                                                                                                              \
    } while (0)

void graphblas_start(void) {
    static int started = 0;
    if (!started) {
        started = 1;
        TRY(GrB_init(GrB_NONBLOCKING));
        TRY(GxB_set(GxB_NTHREADS, 1));
    }
}

// The pairs (from[i], to[i]); repeated ones count once.
GrB_Matrix graphblas_pairs(uint64_t n, const uint64_t *from, const uint64_t *to, uint64_t count) {
    GrB_Matrix a;
    bool *ones = malloc(count + 1);
    for (uint64_t i = 0; i < count; i++)
        ones[i] = true;
    TRY(GrB_Matrix_new(&a, GrB_BOOL, n, n));
    TRY(GrB_Matrix_build_BOOL(a, from, to, ones, count, GrB_LOR));
    free(ones);
    return a;
}

GrB_Matrix graphblas_union(GrB_Matrix a, GrB_Matrix b) {
    TRY(GrB_Matrix_eWiseAdd_BinaryOp(a, NULL, NULL, GrB_LOR, a, b, NULL));
    GrB_Matrix_free(&b);
    return a;
}

GrB_Matrix graphblas_product(GrB_Matrix a, GrB_Matrix b) {
    GrB_Matrix c;
    GrB_Index n;
    TRY(GrB_Matrix_nrows(&n, a));
    TRY(GrB_Matrix_new(&c, GrB_BOOL, n, n));
    TRY(GrB_mxm(c, NULL, NULL, GxB_ANY_PAIR_BOOL, a, b, NULL));
    GrB_Matrix_free(&a);
    GrB_Matrix_free(&b);
    return c;
}

GrB_Matrix graphblas_transpose(GrB_Matrix a) {
    GrB_Matrix c;
    GrB_Index n;
    TRY(GrB_Matrix_nrows(&n, a));
    TRY(GrB_Matrix_new(&c, GrB_BOOL, n, n));
    TRY(GrB_transpose(c, NULL, NULL, a, NULL));
    GrB_Matrix_free(&a);
    return c;
}

// One or more steps: what is new is multiplied by a, as long as something is new.
GrB_Matrix graphblas_closure(GrB_Matrix a) {
    GrB_Matrix all, new;
    GrB_Index count;
    TRY(GrB_Matrix_dup(&all, a));
    TRY(GrB_Matrix_dup(&new, a));
    for (;;) {
        // new = the pairs of new times a that are not in all
        TRY(GrB_mxm(new, all, NULL, GxB_ANY_PAIR_BOOL, new, a, GrB_DESC_RSC));
        TRY(GrB_Matrix_nvals(&count, new));
        if (count == 0)
            break;
        TRY(GrB_Matrix_eWiseAdd_BinaryOp(all, NULL, NULL, GrB_LOR, all, new, NULL));
    }
    GrB_Matrix_free(&a);
    GrB_Matrix_free(&new);
    return all;
}

// The pairs as words, from * 1024 + to, ascending; their number. The matrix is freed. The list has room for n * n words.
uint64_t graphblas_list(GrB_Matrix a, uint32_t *list) {
    GrB_Index count;
    TRY(GrB_Matrix_wait(a, GrB_MATERIALIZE));
    TRY(GrB_Matrix_nvals(&count, a));
    GrB_Index *from = malloc((count + 1) * sizeof *from), *to = malloc((count + 1) * sizeof *to);
    TRY(GrB_Matrix_extractTuples_BOOL(from, to, NULL, &count, a));
    // the library gives them row by row, but promises no order: sorted unless they are
    int ascending = 1;
    for (GrB_Index i = 0; i < count; i++) {
        list[i] = (uint32_t)(from[i] * 1024 + to[i]);
        ascending &= i == 0 || list[i - 1] < list[i];
    }
    free(from);
    free(to);
    GrB_Matrix_free(&a);
    return ascending ? count : count | (uint64_t)1 << 63;
}
