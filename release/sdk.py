"""What a compiler needs next to the shared library: files for the linker, pkg-config and CMake, which find the library
and the header from where they are.
"""

from .sources import version

SHARED, ARCHIVE = "libwokureti.so.0", "libwokureti.a"
# Wheels have no links: for the linker this text is one.
LINK = "/* for the linker: the library that a program is linked with */\nINPUT({shared})\n"
PC = """prefix=${{pcfiledir}}
Name: wokureti
Description: Edited VP8 streams, frame by frame
Version: {version}
Libs: -L${{prefix}} -lwokureti
Cflags: -I${{prefix}}{header}
"""
# find_package(wokureti X.Y CONFIG) in CMake, with wokureti_DIR or CMAKE_PREFIX_PATH naming the folder.
CMAKE = """if(NOT TARGET wokureti::wokureti)
  add_library(wokureti::wokureti SHARED IMPORTED)
  set_target_properties(wokureti::wokureti PROPERTIES
    IMPORTED_LOCATION "${{CMAKE_CURRENT_LIST_DIR}}/{shared}"
    IMPORTED_SONAME "{shared}"
    INTERFACE_INCLUDE_DIRECTORIES "${{CMAKE_CURRENT_LIST_DIR}}{header}")
endif()
"""
# As the header says, and the library's name: what was written for an earlier version of the same major one works.
CMAKE_VERSION = """set(PACKAGE_VERSION "{version}")
string(REGEX MATCH "^[0-9]+" wokureti_here "${{PACKAGE_VERSION}}")
string(REGEX MATCH "^[0-9]+" wokureti_asked "${{PACKAGE_FIND_VERSION}}")
if(wokureti_here STREQUAL wokureti_asked AND NOT PACKAGE_VERSION VERSION_LESS PACKAGE_FIND_VERSION)
  set(PACKAGE_VERSION_COMPATIBLE TRUE)
endif()
if(PACKAGE_VERSION VERSION_EQUAL PACKAGE_FIND_VERSION)
  set(PACKAGE_VERSION_EXACT TRUE)
endif()
"""
FILES = {
    "libwokureti.so": LINK,
    "wokureti.pc": PC,
    "wokureti-config.cmake": CMAKE,
    "wokureti-config-version.cmake": CMAKE_VERSION,
}


def texts(header, number=None):
    """The files by their names, for a folder from which the header is at `header`, which is empty or begins with a
    slash; of this version or another.
    """
    return {
        name: text.format(version=number or version(), shared=SHARED, header=header) for name, text in FILES.items()
    }
