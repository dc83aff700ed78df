DEPENDS = "text"
SOURCES = "${THISDIR}/shout.c ${THISDIR}/Makefile"
