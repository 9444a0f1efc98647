# Images in a Makefile (GNU make).
#
#     include romtool.mk
#     $(call romtool_image,rootfs.cramfs,cramfs,rootfs,--all-root --align 4096 --strict --xip)
#
# The arguments of romtool_image are the image, its format, one or several directories, and options of `romtool pack`. Those
# of romtool_manifest are an image, its format, a manifest and options of `romtool build`. Each run of make builds, and replaces
# the image if its bytes differ; what depends on it is made only then. IMAGE.manifest has the lines that errors of `pack` name.
# ROMTOOL is the program, and romtool_made lists the files that were made, for a rule like
#
#     clean: ; rm -f $(romtool_made)
#
# The name of an image has no spaces, and that of a directory is quoted for the shell if it has some. A comma in an option
# is $(romtool_comma).

ROMTOOL ?= romtool
romtool_comma := ,
romtool_made :=
.PHONY: romtool_always

# the image is the first target, so that it can be the default goal
define romtool_rule
$(1): $(2) romtool_always
	@mkdir -p $$(@D)
	@shown() { printf '%s\n' "$$$$said" | sed -e 's/\.romtool-new//g' -e 's|^romtool: -:|romtool: $$@.manifest:|'; }; \
	said=$$$$($$(ROMTOOL) --explain $(3) $$@.romtool-new 2>&1) || { shown >&2; exit 1; }; \
	if cmp -s $$@.romtool-new $$@; then rm $$@.romtool-new; else mv $$@.romtool-new $$@ && shown; fi
romtool_made += $(1) $(1).manifest
endef
romtool_image = $(eval $(call romtool_rule,$(strip $(1)),,pack $(4) --manifest $$@.manifest $(2) $(3)))
romtool_manifest = $(eval $(call romtool_rule,$(strip $(1)),$(3),build $(4) $(2) $(3)))
