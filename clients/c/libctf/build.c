/* build.c - the build of this library. */
#include "private.h"

/* scripts/libctf.py defines it. */
#ifndef CTFD_BUILD
#define CTFD_BUILD "an unknown build"
#endif

const char *ctf_build(void)
{
    return CTFD_BUILD;
}

const char *ctfd_version(void)
{
    return CTFD_VERSION;
}
