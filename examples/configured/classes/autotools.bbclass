# Software with a script `configure`, which writes its paths into a Makefile.
do_configure[dirs] = "${B}"
do_configure() {
    "${S}/configure" --prefix=/usr CFLAGS="${CFLAGS}"
}

do_compile[dirs] = "${B}"
do_compile() {
    make
}

do_install[dirs] = "${B}"
do_install[cleandirs] = "${D}"
do_install() {
    make install DESTDIR="${D}"
}
