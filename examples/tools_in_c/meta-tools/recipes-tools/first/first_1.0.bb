inherit program
DEPENDS = ""
SOURCES = "meta-tools/recipes-tools/first/first.c"
