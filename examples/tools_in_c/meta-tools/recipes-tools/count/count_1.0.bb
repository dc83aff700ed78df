inherit program
DEPENDS = "lines words"
SOURCES = "meta-tools/recipes-tools/count/count.c"
