# The targets reed_solomon_simd::shared, reed_solomon_simd::static if the static library is there, and
# reed_solomon_simd::reed_solomon_simd, which is the first of them. The components are `shared` and `static`.
get_filename_component(_reed_solomon_simd_lib "${CMAKE_CURRENT_LIST_DIR}/@LIBDIR@" ABSOLUTE)
get_filename_component(_reed_solomon_simd_include "${CMAKE_CURRENT_LIST_DIR}/@INCLUDEDIR@" ABSOLUTE)
if(NOT TARGET reed_solomon_simd::shared AND EXISTS "${_reed_solomon_simd_lib}/@REAL@")
  add_library(reed_solomon_simd::shared SHARED IMPORTED)
  set_target_properties(reed_solomon_simd::shared PROPERTIES
    IMPORTED_LOCATION "${_reed_solomon_simd_lib}/@REAL@"
    IMPORTED_SONAME "libreed_solomon_simd.so.1"
    INTERFACE_INCLUDE_DIRECTORIES "${_reed_solomon_simd_include}")
  add_library(reed_solomon_simd::reed_solomon_simd INTERFACE IMPORTED)
  set_target_properties(reed_solomon_simd::reed_solomon_simd PROPERTIES
    INTERFACE_LINK_LIBRARIES reed_solomon_simd::shared)
endif()
if(NOT TARGET reed_solomon_simd::static AND EXISTS "${_reed_solomon_simd_lib}/libreed_solomon_simd.a")
  add_library(reed_solomon_simd::static STATIC IMPORTED)
  set_target_properties(reed_solomon_simd::static PROPERTIES
    IMPORTED_LOCATION "${_reed_solomon_simd_lib}/libreed_solomon_simd.a"
    INTERFACE_INCLUDE_DIRECTORIES "${_reed_solomon_simd_include}")
endif()
if(NOT TARGET reed_solomon_simd::shared)
  set(reed_solomon_simd_FOUND FALSE)
  set(reed_solomon_simd_NOT_FOUND_MESSAGE "there is no ${_reed_solomon_simd_lib}/@REAL@")
endif()
unset(_reed_solomon_simd_lib)
unset(_reed_solomon_simd_include)
foreach(_reed_solomon_simd_part IN LISTS reed_solomon_simd_FIND_COMPONENTS)
  set(reed_solomon_simd_${_reed_solomon_simd_part}_FOUND FALSE)
  if(_reed_solomon_simd_part MATCHES "^(shared|static)$" AND TARGET reed_solomon_simd::${_reed_solomon_simd_part})
    set(reed_solomon_simd_${_reed_solomon_simd_part}_FOUND TRUE)
  elseif(reed_solomon_simd_FIND_REQUIRED_${_reed_solomon_simd_part})
    set(reed_solomon_simd_FOUND FALSE)
    set(reed_solomon_simd_NOT_FOUND_MESSAGE "reed_solomon_simd has no component ${_reed_solomon_simd_part}")
  endif()
endforeach()
unset(_reed_solomon_simd_part)
