# Software with a CMakeLists.txt. What CMake leaves of its trials has random names in it, and isn't kept.
do_configure[dirs] = "${B}"
do_configure() {
    cmake -DCMAKE_INSTALL_PREFIX=/usr -DCMAKE_C_FLAGS="${CFLAGS}" "${S}"
    rm -rf CMakeFiles/*.log CMakeFiles/CMakeConfigureLog.yaml CMakeFiles/CMakeTmp CMakeFiles/CMakeScratch CMakeFiles/*/*.bin
}

do_compile[dirs] = "${B}"
do_compile() {
    cmake --build .
}

do_install[dirs] = "${B}"
do_install[cleandirs] = "${D}"
do_install() {
    DESTDIR="${D}" cmake --build . --target install
}
