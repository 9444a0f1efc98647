# Not tried in Buildroot: only with stubs of its macros (tests/test_recipes.py). It installs host-romtool from the archive of a
# release. On a host without glibc 2.34, HOST_ROMTOOL_PROGRAM may be bin/romtool-static, which fakeroot does not reach: then
# use --all-root and --devices, and run it without fakeroot's variables.

ROMTOOL_VERSION = 2.0.0
ROMTOOL_SOURCE = romtool-$(ROMTOOL_VERSION)-x86_64-linux.tar.gz
# set it to the directory or the address that has the files of a release, and write their SHA256SUMS to romtool.hash
ROMTOOL_SITE ?= https://example.invalid/romtool/$(ROMTOOL_VERSION)
ROMTOOL_LICENSE = MIT
ROMTOOL_LICENSE_FILES = share/doc/romtool/LICENSE

HOST_ROMTOOL_PROGRAM ?= $(@D)/bin/romtool

define HOST_ROMTOOL_INSTALL_CMDS
	$(INSTALL) -D -m 0755 $(HOST_ROMTOOL_PROGRAM) $(HOST_DIR)/bin/romtool
endef

$(eval $(host-generic-package))
