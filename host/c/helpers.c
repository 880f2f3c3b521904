/* The helpers of the header as functions: a part of the shared library, for callers that cannot read the header. */
#define SEASON_HELPER
#include "season_checker.h"
