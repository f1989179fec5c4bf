// Reads an equation list of symbols, finds its Dulmage and Mendelsohn parts by CXSparse's cs_dmperm, and writes the rows and
// columns of each block. The peer of `mixed analyse matrix` on symbols, whole run.
#include <suitesparse/cs.h>

#include "equations.h"

static cs_di *triplets;

static void put(long row, long column, long value) {
    (void)value;
    cs_di_entry(triplets, row, column, 1);
}

int main(void) {
    triplets = cs_di_spalloc(0, 0, 1024, 1, 1);
    read_equations(put);
    triplets->m = rows;
    triplets->n = columns;
    cs_di *matrix = cs_di_compress(triplets);
    cs_did *parts = cs_di_dmperm(matrix, 0);
    for (int block = 0; block < parts->nb; block++) {
        printf("block %d:", block + 1);
        for (int i = parts->r[block]; i < parts->r[block + 1]; i++) printf(" %d", parts->p[i] + 1);
        printf(" |");
        for (int j = parts->s[block]; j < parts->s[block + 1]; j++) printf(" %d", parts->q[j] + 1);
        printf("\n");
    }
    return 0;
}
