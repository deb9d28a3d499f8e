/* The header alone: what is not used leaves no warning behind, and nothing in the object file. */
#include "reefstencil.h"
#include "reefstencil.h"

extern int nothing_is_used;
int nothing_is_used;
