/*
 * The version of the library: the one part of it that is not written in Rattle. It stands in an
 * object of its own, beside the proved ones.
 */
#include "netbuff.h"

uint32_t netbuff_version(void)
{
    return NETBUFF_VERSION;
}
