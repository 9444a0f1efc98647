# Not tried in Buildroot: only with stubs of its macros (tests/test_recipes.py). In a message, -:N is line N of rootfs.romtool.manifest.

ROOTFS_ROMTOOL_DEPENDENCIES = host-romtool
ROOTFS_ROMTOOL_CRAMFS = $(if $(filter BIG,$(call qstrip,$(BR2_ENDIAN))),cramfs-be,cramfs)
ROOTFS_ROMTOOL_FORMAT = $(if $(BR2_TARGET_ROOTFS_ROMTOOL_ROMFS),romfs,$(ROOTFS_ROMTOOL_CRAMFS))
ROOTFS_ROMTOOL_OPTIONS = $(call qstrip,$(BR2_TARGET_ROOTFS_ROMTOOL_OPTIONS))
ROOTFS_ROMTOOL_OPTIONS += $(addprefix --devices ,$(call qstrip,$(BR2_TARGET_ROOTFS_ROMTOOL_DEVICES)))

define ROOTFS_ROMTOOL_CMD
	$(HOST_DIR)/bin/romtool pack $(ROOTFS_ROMTOOL_OPTIONS) --manifest $@.manifest $(ROOTFS_ROMTOOL_FORMAT) $(TARGET_DIR) $@
endef

$(eval $(rootfs))
