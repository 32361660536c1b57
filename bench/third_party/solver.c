#include <stdio.h>
#include "picosat.h"
/* Eight pigeons and seven holes: unsatisfiable. */
enum { HOLES = 7 };
static int var(int pigeon, int hole) { return pigeon * HOLES + hole + 1; }
int main(void) {
    PicoSAT *solver = picosat_init();
    for (int p = 0; p <= HOLES; p++) {
        for (int h = 0; h < HOLES; h++) picosat_add(solver, var(p, h));
        picosat_add(solver, 0);
    }
    for (int h = 0; h < HOLES; h++)
        for (int p = 0; p <= HOLES; p++)
            for (int q = 0; q < p; q++) {
                picosat_add(solver, -var(p, h)); picosat_add(solver, -var(q, h)); picosat_add(solver, 0);
            }
    int result = picosat_sat(solver, -1);
    printf("%s, %llu propagations, %llu decisions\n", result == PICOSAT_UNSATISFIABLE ? "unsatisfiable" : "?",
        picosat_propagations(solver), picosat_decisions(solver));
    return 0;
}
