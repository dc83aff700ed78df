inherit library
SOURCES = "meta/recipes-libs/lines/lines.c meta/recipes-libs/lines/lines.h"
