/* The header in a second file of one program, included twice and mostly unused. */
#include <zilpanud.h>

#include "header_again.h"
#include <zilpanud.h>

uint64_t left_elsewhere(void)
{
    return *ZILPANUD_ALL;
}
