/* bench.c with the rows that need the library of crate bench_list. */
#define BENCH_LIST
#include "bench.c"
