DEPENDS = "greet"
do_compile() {
    cat "${DEPSDIR}/greet/do_populate_sysroot/usr/lib/libgreet.txt" > out.txt
}
do_install() {
    mkdir -p "${D}/usr/share"
    cp "${B}/out.txt" "${D}/usr/share/out.txt"
}
