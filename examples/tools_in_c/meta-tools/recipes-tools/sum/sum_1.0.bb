inherit program
DEPENDS = "lines numbers"
SOURCES = "meta-tools/recipes-tools/sum/sum.c"
