# Not tried in Buildroot: only with stubs of its macros (tests/test_recipes.py).
include $(sort $(wildcard $(BR2_EXTERNAL_ROMTOOL_PATH)/package/*/*.mk $(BR2_EXTERNAL_ROMTOOL_PATH)/fs/*/*.mk))
