inherit program
DEPENDS = "lines words"
SOURCES = "meta-tools/recipes-tools/reverse/reverse.c"
