/* The version that the library was made with. It is the one function in it that is not proved. */
#include "havirozan.h"

unsigned int havirozan_version(void) { return HAVIROZAN_VERSION; }
