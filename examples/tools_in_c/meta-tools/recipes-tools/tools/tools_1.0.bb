# All programs in one folder, each tried once.
DEPENDS = "count reverse sum largest longest first"
do_compile() {
    mkdir bin
    for program in ${DEPENDS}; do
        cp "${DEPSDIR}/$program/do_install/bin/$program" bin
    done
}
do_install() {
    printf '2\n10\n' > numbers.txt
    test "$(bin/count < numbers.txt)" = 2
    test "$(bin/reverse < numbers.txt | bin/first)" = 2
    test "$(bin/sum < numbers.txt)" = 12
    test "$(bin/largest < numbers.txt)" = 10
    test "$(bin/longest < numbers.txt)" = 2
    mkdir "${WORKDIR}/image"
    cp -R bin "${WORKDIR}/image/bin"
}
