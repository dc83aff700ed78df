# The tasks of every recipe, from its sources to what is built upon it.
S = "${WORKDIR}/${PN}-${PV}"
D = "${WORKDIR}/image"
DEPENDS ??= ""
SOURCES ??= ""
addtask unpack
addtask configure after do_unpack
addtask compile after do_configure
addtask install after do_compile
addtask sysroot after do_install
addtask build after do_sysroot

# Sources are files of the project. An archive holds the folder ${S}; all else is put there.
do_unpack[file-checksums] = "${SOURCES}"
do_unpack[dirs] = "${S} ${WORKDIR}"
do_unpack() {
    for file in "${FILESDIR}"/*; do
        [ -e "$file" ] || continue
        case $file in
            *.tar) tar -xf "$file" ;;
            *) cp "$file" "${S}" ;;
        esac
    done
}

# What the recipe depends on is gathered beside its sources, so that no path in an output names the place where a task ran.
do_configure[deptask] = "do_sysroot"
do_configure[dirs] = "${WORKDIR}/recipe-sysroot ${S}"
CFLAGS:append = "${@bb.utils.contains('FEATURES', 'fast', ' -O2', '', d)}"
do_configure() {
    for name in ${DEPENDS}; do
        cp -R "${DEPSDIR}/$name/do_sysroot/." ../recipe-sysroot
    done
    printf 'CFLAGS = %s\nSYSROOT = ../recipe-sysroot\n' '${CFLAGS}' > config.mk
}

do_compile[dirs] = "${S}"
do_compile() {
    make
}

do_install[dirs] = "${S}"
do_install[cleandirs] = "${D}"
do_install() {
    make install DESTDIR="${D}"
}

# What is installed is kept as a shared state object, and laid for those that depend on it.
do_sysroot() {
    cp -R "${D}" "${WORKDIR}/sysroot"
}
SSTATETASKS += "do_sysroot"
do_sysroot[sstate-inputdirs] = "${WORKDIR}/sysroot"
do_sysroot[sstate-outputdirs] = "."

do_build[noexec] = "1"
