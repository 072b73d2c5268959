/* The library: in a release, the C file stands in the place of this one. */
#include "../../../../dist/codex32.c"
