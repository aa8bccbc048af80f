// The library over version 3: the fans behind boards.
#define VERSION 3
#include "library.c"
