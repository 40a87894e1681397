// The benchmark's program: prints a line of figures for each measurement, which table.py reads.
//   measure SEED PLOTS ROUNDS
#include "bench.h"
#include <stdlib.h>

int main(int argc, char **argv) {
    if (argc != 4) return 2;
    seed_plots(strtoull(argv[1], 0, 10));
    size_t plots = strtoul(argv[2], 0, 10), rounds = strtoul(argv[3], 0, 10);
    measure_drives(plots, rounds);
    measure_calls(plots, rounds);
    return 0;
}
