# What a recipe installs is kept as a shared state object, and laid for those that depend on it.
addtask compile
addtask install after do_compile
addtask build after do_install
do_compile[deptask] = "do_install"
SSTATETASKS += "do_install"
do_install[sstate-inputdirs] = "${WORKDIR}/image"
do_install[sstate-outputdirs] = "."
do_build[noexec] = "1"
