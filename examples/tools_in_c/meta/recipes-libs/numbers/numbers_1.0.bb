inherit library
SOURCES = "meta/recipes-libs/numbers/numbers.c meta/recipes-libs/numbers/numbers.h"
