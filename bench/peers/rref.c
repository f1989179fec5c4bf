// Reads an equation list of constants, makes [Q | I] modulo 65,521, brings it into reduced row echelon form by FLINT's
// nmod_mat_rref, and prints the rank of Q and how many entries of the result are not 0. The peer of `mixed analyse matrix`
// on constants, whole run.
#include <flint/nmod_mat.h>

#include "equations.h"

static long entries, room;
static long (*places)[3];

static void put(long row, long column, long value) {
    if (entries == room) {
        room = room ? 2 * room : 1024;
        places = realloc(places, room * sizeof *places);
    }
    places[entries][0] = row;
    places[entries][1] = column;
    places[entries++][2] = (value % 65521 + 65521) % 65521;
}

int main(void) {
    read_equations(put);
    nmod_mat_t whole;
    nmod_mat_init(whole, rows, columns + rows, 65521);
    for (long i = 0; i < entries; i++) nmod_mat_entry(whole, places[i][0], places[i][1]) = places[i][2];
    for (long i = 0; i < rows; i++) nmod_mat_entry(whole, i, columns + i) = 1;
    nmod_mat_rref(whole);
    long rank = 0, some = 0;
    for (long i = 0; i < rows; i++) {
        int found = 0;
        for (long j = 0; j < columns + rows; j++) {
            int is = nmod_mat_entry(whole, i, j) != 0;
            some += is;
            found |= is && j < columns;
        }
        rank += found;
    }
    printf("rank %ld entries %ld\n", rank, some);
    return 0;
}
