inherit program
DEPENDS = "lines"
SOURCES = "meta-tools/recipes-tools/longest/longest.c"
