"""What pkg-config and CMake read of the libraries."""

import contents
from contents import version

PKG_CONFIG = """\
prefix={prefix}
libdir=${{prefix}}/{libraries}
includedir=${{prefix}}/include

Name: chipfire
Description: chip-firing games (abelian sandpiles), by proved functions
Version: {version}
Libs: -L${{libdir}} -lchipfire
Cflags: -I${{includedir}}
"""
CMAKE = """\
# The libraries of chipfire: chipfire::chipfire is shared, and chipfire::static is not.
get_filename_component(_chipfire_prefix "${{CMAKE_CURRENT_LIST_DIR}}/{up}" ABSOLUTE)
if(NOT TARGET chipfire::chipfire)
  add_library(chipfire::chipfire SHARED IMPORTED)
  set_target_properties(chipfire::chipfire PROPERTIES
    IMPORTED_LOCATION "${{_chipfire_prefix}}/{libraries}/{soname}"
    IMPORTED_SONAME "{soname}"
    INTERFACE_INCLUDE_DIRECTORIES "${{_chipfire_prefix}}/include")
  add_library(chipfire::static STATIC IMPORTED)
  set_target_properties(chipfire::static PROPERTIES
    IMPORTED_LOCATION "${{_chipfire_prefix}}/{libraries}/{static}"
    INTERFACE_INCLUDE_DIRECTORIES "${{_chipfire_prefix}}/include")
endif()
unset(_chipfire_prefix)
"""
#: A version fits if it is as new as the one that is asked for, and has the same first number.
CMAKE_VERSION = """\
set(PACKAGE_VERSION "{version}")
if(PACKAGE_FIND_VERSION VERSION_GREATER PACKAGE_VERSION)
  set(PACKAGE_VERSION_COMPATIBLE FALSE)
elseif(PACKAGE_FIND_VERSION AND NOT PACKAGE_FIND_VERSION_MAJOR EQUAL {first})
  set(PACKAGE_VERSION_COMPATIBLE FALSE)
else()
  set(PACKAGE_VERSION_COMPATIBLE TRUE)
endif()
if(PACKAGE_FIND_VERSION VERSION_EQUAL PACKAGE_VERSION)
  set(PACKAGE_VERSION_EXACT TRUE)
endif()
if(CMAKE_SIZEOF_VOID_P AND NOT CMAKE_SIZEOF_VOID_P EQUAL 8)
  set(PACKAGE_VERSION_UNSUITABLE TRUE)
endif()
"""


def up_from(libraries, place):
    """Returns the way up from the folder of a file in that of the libraries to where that lies."""
    return "/".join([".."] * f"{libraries}/{place}".count("/"))


def files(libraries, prefix):
    """Returns what other tools read, by places in the folder of the libraries. Without a prefix pkg-config finds all from
    where its file lies, as CMake always does."""
    found = {
        contents.PKG_CONFIG: PKG_CONFIG,
        contents.CMAKE: CMAKE,
        contents.CMAKE_VERSION: CMAKE_VERSION,
    }
    return {
        place: text.format(
            prefix=prefix or f"${{pcfiledir}}/{up_from(libraries, place)}",
            up=up_from(libraries, place),
            libraries=libraries,
            soname=contents.SONAME,
            static=contents.STATIC,
            version=version(),
            first=version().partition(".")[0],
        )
        for place, text in found.items()
    }
