# A library of one file and its header, SOURCES.
do_compile[file-checksums] = "${SOURCES}"
do_compile() {
    cp "${FILESDIR}/${PN}.h" .
    cc ${CFLAGS} -I. -c -o "${PN}.o" "${FILESDIR}/${PN}.c"
    ar rcsD "lib${PN}.a" "${PN}.o"
}
do_install() {
    mkdir -p "${WORKDIR}/image/include" "${WORKDIR}/image/lib"
    cp "${PN}.h" "${WORKDIR}/image/include"
    cp "lib${PN}.a" "${WORKDIR}/image/lib"
}
