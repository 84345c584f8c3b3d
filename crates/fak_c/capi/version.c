/* The version of an archive of the library: the object of this file is a part of each (fak_c.h). */
#define FAK_C_ANY_VERSION
#include "fak_c.h"

const char FAK_C_VERSION_SYMBOL[] = FAK_C_VERSION;
