# A script: there is nothing to compile, so it is only looked at.
SOURCES = "${THISDIR}/banner.sh"
do_compile() {
    sh -n banner.sh
}
do_install() {
    mkdir "${D}/bin"
    cp banner.sh "${D}/bin/banner"
    chmod 755 "${D}/bin/banner"
}
