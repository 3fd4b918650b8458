/* The functions that nekchhaul.h has in C, as functions of the library: for Python's ctypes, Rust, and whoever has no C compiler. */
#define NEKCHHAUL_INLINE
#include "include/nekchhaul.h"
