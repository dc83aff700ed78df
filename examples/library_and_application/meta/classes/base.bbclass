addtask configure
addtask compile after do_configure
addtask install after do_compile
addtask populate_sysroot after do_install
addtask build after do_populate_sysroot
do_compile[deptask] = "do_populate_sysroot"
do_compile[dirs] = "${B}"
do_install[cleandirs] = "${D}"
do_populate_sysroot() {
    mkdir -p "${WORKDIR}/sysroot"
    cp -RP "${D}/usr" "${WORKDIR}/sysroot/usr"
}
SSTATETASKS += "do_populate_sysroot"
do_populate_sysroot[sstate-inputdirs] = "${WORKDIR}/sysroot"
do_populate_sysroot[sstate-outputdirs] = "."
do_build[noexec] = "1"
