/* The step of plain.c, which lists its accesses. */
#define LISTED 1
#include "plain.c"
