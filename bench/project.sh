# A project to be measured, for the scripts beside this file.
#
# project FOLDER COUNT makes a project of so many recipes
project() {
    mkdir -p "$1/conf" "$1/classes" "$1/recipes"
    awk 'BEGIN {
        print "OVERRIDES = \"linux:${MACHINE}\""
        print "MACHINE ?= \"qemu\""
        for (i = 1; i <= 298; i++) printf "SETTING_%d = \"the value of setting %d for ${MACHINE}\"\n", i, i
    }' > "$1/conf/bitbake.conf"
    for class in build install package; do
        awk -v name="$class" 'BEGIN {
            for (i = 1; i <= 10; i++) printf "%s_OPTION_%d ?= \"--with-option-%d=${PN}\"\n", toupper(name), i, i
            printf "do_%s() {\n    echo %s ${PN} ${PV}\n}\naddtask %s\n", name, name, name
        }' > "$1/classes/$class.bbclass"
    done
    awk 'BEGIN { for (i = 1; i <= 10; i++) printf "COMMON_%d = \"common %d of ${PN}\"\n", i, i }' > "$1/recipes/common.inc"
    awk -v folder="$1/recipes" -v count="$2" 'BEGIN {
        for (r = 1; r <= count; r++) {
            file = folder "/recipe-" r "_1." r ".bb"
            print "inherit build install package" > file
            print "require common.inc" > file
            printf "DEPENDS = \"recipe-%d\"\n", (r > 1 ? r - 1 : 1) > file
            printf "RDEPENDS:${PN} = \"recipe-%d\"\n", (r > 1 ? r - 1 : 1) > file
            for (i = 1; i <= 24; i++) printf "NAME_%d = \"a value of some words, number %d, for ${PN} %d\"\n", i, i, r > file
            print "CFLAGS:append = \" -O2 -g\"" > file
            print "do_compile() {" > file
            for (i = 1; i <= 12; i++) printf "    echo step %d of ${PN} ${PV} > out-%d.txt\n", i, i > file
            print "}" > file
            print "addtask compile before do_build" > file
            close(file)
        }
    }'
}
