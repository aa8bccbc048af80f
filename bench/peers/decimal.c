// The library over version 2's unit.
#define VERSION 2
#include "library.c"
