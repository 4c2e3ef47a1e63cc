/* The one call of libwadlook that isn't in Rattle, whose calls hand out no text: the version of the header that it is built with. */
#include "wadlook.h"

const char *wadlook_version(void) { return WADLOOK_VERSION; }
