# romtool for boards. Set ROMTOOL_TARGET to the name of a directory in lib/ before find_package(romtool), and ROMTOOL_WIDE for the
# larger archive with the proved search. The targets are romtool::romtool, romtool::area (a heap over an array) and romtool::bytes (memcpy, memmove and memset
# for programs without a C library). The compiler's flags are those of the toolchain file: none are added.
set(_romtool_targets @TARGETS@)
if(NOT ROMTOOL_TARGET IN_LIST _romtool_targets)
    message(FATAL_ERROR "romtool: set ROMTOOL_TARGET to one of ${_romtool_targets}")
endif()
get_filename_component(_romtool_prefix "${CMAKE_CURRENT_LIST_DIR}/../../.." ABSOLUTE)
set(_romtool_archive "${_romtool_prefix}/lib/${ROMTOOL_TARGET}/libromtool.a")
if(ROMTOOL_WIDE AND EXISTS "${_romtool_prefix}/lib/${ROMTOOL_TARGET}/libromtool_wide.a")
    set(_romtool_archive "${_romtool_prefix}/lib/${ROMTOOL_TARGET}/libromtool_wide.a")
endif()
if(NOT TARGET romtool::romtool)
    add_library(romtool::romtool STATIC IMPORTED)
    set_target_properties(romtool::romtool PROPERTIES
        IMPORTED_LOCATION "${_romtool_archive}"
        IMPORTED_LINK_INTERFACE_LANGUAGES C
        INTERFACE_INCLUDE_DIRECTORIES "${_romtool_prefix}/include")
    foreach(_romtool_part area bytes)
        add_library(romtool::${_romtool_part} INTERFACE IMPORTED)
        set_target_properties(romtool::${_romtool_part} PROPERTIES
            INTERFACE_SOURCES "${_romtool_prefix}/src/${_romtool_part}.c"
            INTERFACE_INCLUDE_DIRECTORIES "${_romtool_prefix}/include")
    endforeach()
    set_property(SOURCE "${_romtool_prefix}/src/bytes.c" APPEND PROPERTY COMPILE_OPTIONS -O2 -ffreestanding -fno-builtin)
endif()
set(romtool_FOUND TRUE)
unset(_romtool_prefix)
unset(_romtool_archive)
unset(_romtool_targets)
