# Not tried in Yocto: only its shell function was run (tests/test_recipes.py). It installs the program of a release.
SUMMARY = "Builds and checks romfs and cramfs images that are executed in place"
LICENSE = "MIT"
LIC_FILES_CHKSUM = "file://share/doc/romtool/LICENSE;md5=b7c74c976fbb5e4cf59f1caf3eedd9e1"

# set ROMTOOL_MIRROR to the address that has the files of a release, and the sum to that in its SHA256SUMS
ROMTOOL_MIRROR ?= "https://example.invalid/romtool/${PV}"
SRC_URI = "${ROMTOOL_MIRROR}/romtool-${PV}-x86_64-linux.tar.gz"
SRC_URI[sha256sum] = "0000000000000000000000000000000000000000000000000000000000000000"
S = "${WORKDIR}/romtool-${PV}-x86_64-linux"

inherit native

COMPATIBLE_HOST = "x86_64.*-linux"
INHIBIT_SYSROOT_STRIP = "1"
do_configure[noexec] = "1"
do_compile[noexec] = "1"

do_install() {
    install -D -m 0755 ${S}/bin/romtool ${D}${bindir}/romtool
}
