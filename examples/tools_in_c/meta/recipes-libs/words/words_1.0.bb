inherit library
SOURCES = "meta/recipes-libs/words/words.c meta/recipes-libs/words/words.h"
