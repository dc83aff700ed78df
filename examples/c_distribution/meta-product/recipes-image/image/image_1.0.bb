# All programs in one folder. The last task runs them.
DEPENDS = "banner shout wordcount"
TITLE ?= "report"
do_compile[noexec] = "1"
do_install() {
    cp -R ../recipe-sysroot/bin "${D}/bin"
}
do_build[noexec] = "0"
do_build() {
    printf 'a well-known text\n' > text.txt
    bin/banner "${TITLE}" > report.txt
    bin/wordcount < text.txt >> report.txt
    bin/shout < text.txt >> report.txt
}
