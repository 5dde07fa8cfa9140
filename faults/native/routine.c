/* The routine of the file that ROUTINE names, for a native compiler. */
#include "words.h"

#include ROUTINE
