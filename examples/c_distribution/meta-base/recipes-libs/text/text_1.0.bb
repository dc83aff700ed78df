# A static library. Its sources come as an archive.
SOURCES = "${THISDIR}/text-1.0.tar"
