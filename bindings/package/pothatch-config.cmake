# find_package(pothatch CONFIG): the targets pothatch::pothatch (shared library) and pothatch::static (archive).
get_filename_component(_pothatch_prefix "${CMAKE_CURRENT_LIST_DIR}/../../.." ABSOLUTE)
if(NOT TARGET pothatch::pothatch)
  add_library(pothatch::pothatch SHARED IMPORTED)
  set_target_properties(pothatch::pothatch PROPERTIES
    IMPORTED_LOCATION "${_pothatch_prefix}/lib/libpothatch.so.@INTERFACE@"
    IMPORTED_SONAME "libpothatch.so.@INTERFACE@"
    INTERFACE_INCLUDE_DIRECTORIES "${_pothatch_prefix}/include")
  add_library(pothatch::static STATIC IMPORTED)
  set_target_properties(pothatch::static PROPERTIES
    IMPORTED_LOCATION "${_pothatch_prefix}/lib/libpothatch.a"
    INTERFACE_INCLUDE_DIRECTORIES "${_pothatch_prefix}/include")
endif()
unset(_pothatch_prefix)
