# Not tried in Yocto: only its shell function was run (tests/test_recipes.py). In a configuration:
#
#     IMAGE_CLASSES += "image_types_romtool"
#     IMAGE_FSTYPES += "romtool"
#
# Owners, modes and devices are those that pseudo shows. ROMTOOL_DEVICES may name a file for --devices. For a target without an MMU,
# and for romfs, set ROMTOOL_OPTIONS without --xip. In a message, -:N is line N of the manifest, which is in WORKDIR.

ROMTOOL_FORMAT ?= "${@'cramfs-be' if d.getVar('SITEINFO_ENDIANNESS') == 'be' else 'cramfs'}"
ROMTOOL_OPTIONS ?= "--align 4096 --strict --xip"
ROMTOOL_DEVICES ?= ""

inherit siteinfo

romtool_pack() {
    set -- ${ROMTOOL_OPTIONS} --manifest ${WORKDIR}/${IMAGE_NAME}.manifest
    if [ -n "${ROMTOOL_DEVICES}" ]; then
        set -- "$@" --devices "${ROMTOOL_DEVICES}"
    fi
    romtool pack "$@" ${ROMTOOL_FORMAT} ${IMAGE_ROOTFS} ${IMGDEPLOYDIR}/${IMAGE_NAME}.romtool
}

IMAGE_TYPES += "romtool"
IMAGE_CMD:romtool = "romtool_pack"
do_image_romtool[depends] += "romtool-native:do_populate_sysroot"
