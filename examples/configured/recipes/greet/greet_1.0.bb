# A program whose Makefile holds the whole path of its sources.
inherit autotools
SOURCES = "${THISDIR}/configure ${THISDIR}/greet.c"
