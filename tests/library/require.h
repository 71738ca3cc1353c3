/* Counts and prints what doesn't hold. */
#include <stdio.h>

static int failed;

#define REQUIRE(holds) ((holds) ? (void)0 : (void)(failed++, printf("line %d: %s\n", __LINE__, #holds)))
