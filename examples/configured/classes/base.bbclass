# What every recipe has: sources that are put where they are built, and a build in three tasks. Each task begins with the files of the one
# before it, at the same path: so what a configured tree holds of its own place is right in each of them.
S = "${WORKDIR}/${PN}"
B = "${WORKDIR}/build"
D = "${WORKDIR}/image"
SOURCES ??= ""
addtask unpack
addtask configure after do_unpack
addtask compile after do_configure
addtask install after do_compile
addtask build after do_install

do_unpack[file-checksums] = "${SOURCES}"
do_unpack[dirs] = "${S}"
do_unpack() {
    cp "${FILESDIR}"/* .
}

do_build[noexec] = "1"
