/* What a library was built from. bindings/build compiles this file, and gives the text. It is the
 * only part of the library that is not written in Rattle: two constants.
 */
#include "arena.h"

const char *arena_version(void) {
    return ARENA_VERSION;
}

const char *arena_built(void) {
    return ARENA_BUILT;
}
