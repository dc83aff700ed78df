# A program of one file, SOURCES, that is linked with the libraries in DEPENDS.
do_compile[file-checksums] = "${SOURCES}"
do_compile() {
    set --
    for library in ${DEPENDS}; do
        set -- "$@" -I"${DEPSDIR}/$library/do_install/include" -L"${DEPSDIR}/$library/do_install/lib" -l"$library"
    done
    cc ${CFLAGS} -o "${PN}" "${FILESDIR}/${PN}.c" "$@"
}
do_install() {
    mkdir -p "${WORKDIR}/image/bin"
    cp "${PN}" "${WORKDIR}/image/bin"
}
