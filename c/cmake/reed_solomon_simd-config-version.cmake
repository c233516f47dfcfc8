# A program asks for a version or for a range of versions. It can use this one if this one is in the range, or if the
# program asks for the same major number and for no later version. A patch changes no declaration of the header, so
# the patch level does not matter for the end of a range or for an exact version.
set(PACKAGE_VERSION "@VERSION@")
string(REGEX MATCH "^[0-9]+" _reed_solomon_simd_major "${PACKAGE_VERSION}")
string(REGEX MATCH "^[0-9]+[.][0-9]+" _reed_solomon_simd_minor "${PACKAGE_VERSION}")
set(PACKAGE_VERSION_COMPATIBLE TRUE)
if(PACKAGE_FIND_VERSION VERSION_GREATER PACKAGE_VERSION)
  set(PACKAGE_VERSION_COMPATIBLE FALSE)
elseif(PACKAGE_FIND_VERSION_RANGE)
  if(PACKAGE_FIND_VERSION_MAX VERSION_LESS _reed_solomon_simd_minor OR
     (PACKAGE_FIND_VERSION_RANGE_MAX STREQUAL "EXCLUDE" AND
      NOT PACKAGE_FIND_VERSION_MAX VERSION_GREATER PACKAGE_VERSION))
    set(PACKAGE_VERSION_COMPATIBLE FALSE)
  endif()
elseif(PACKAGE_FIND_VERSION AND NOT PACKAGE_FIND_VERSION_MAJOR EQUAL _reed_solomon_simd_major)
  set(PACKAGE_VERSION_COMPATIBLE FALSE)
elseif(PACKAGE_FIND_VERSION VERSION_EQUAL PACKAGE_VERSION OR
       PACKAGE_FIND_VERSION VERSION_EQUAL _reed_solomon_simd_minor)
  set(PACKAGE_VERSION_EXACT TRUE)
endif()
# The size of a pointer is not known in a project without languages.
if(CMAKE_SIZEOF_VOID_P AND NOT CMAKE_SIZEOF_VOID_P EQUAL 8)
  set(PACKAGE_VERSION_UNSUITABLE TRUE)
endif()
unset(_reed_solomon_simd_major)
unset(_reed_solomon_simd_minor)
