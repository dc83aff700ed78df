DEPENDS = "text"
SOURCES = "${THISDIR}/wordcount.c ${THISDIR}/Makefile"
