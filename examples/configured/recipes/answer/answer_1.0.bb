# A program that CMake builds.
inherit cmake
SOURCES = "${THISDIR}/CMakeLists.txt ${THISDIR}/answer.c"
