# The targets indexset::indexset, the shared library, and indexset::static.
get_filename_component(_indexset_prefix "${CMAKE_CURRENT_LIST_DIR}/../../.." ABSOLUTE)
if(NOT TARGET indexset::indexset)
  add_library(indexset::indexset SHARED IMPORTED)
  set_target_properties(indexset::indexset PROPERTIES
    IMPORTED_LOCATION "${_indexset_prefix}/lib/libindexset.so"
    INTERFACE_INCLUDE_DIRECTORIES "${_indexset_prefix}/include")
  add_library(indexset::static STATIC IMPORTED)
  set_target_properties(indexset::static PROPERTIES
    IMPORTED_LOCATION "${_indexset_prefix}/lib/libindexset.a"
    INTERFACE_INCLUDE_DIRECTORIES "${_indexset_prefix}/include")
endif()
unset(_indexset_prefix)
