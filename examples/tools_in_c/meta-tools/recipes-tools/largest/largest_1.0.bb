inherit program
DEPENDS = "lines numbers"
SOURCES = "meta-tools/recipes-tools/largest/largest.c"
