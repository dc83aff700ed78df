TEXT = "hello"
do_compile() {
    echo "${TEXT}" > libgreet.txt
}
do_install() {
    mkdir -p "${D}/usr/lib"
    cp "${B}/libgreet.txt" "${D}/usr/lib/libgreet.txt.1"
    ln -s libgreet.txt.1 "${D}/usr/lib/libgreet.txt"
}
