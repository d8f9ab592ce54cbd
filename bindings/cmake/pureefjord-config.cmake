# find_package(pureefjord) gives two targets: pureefjord::static and pureefjord::shared.
get_filename_component(_pureefjord_prefix "${CMAKE_CURRENT_LIST_DIR}/../../.." ABSOLUTE)
foreach(_pureefjord_kind static shared)
  if(NOT TARGET pureefjord::${_pureefjord_kind})
    string(TOUPPER ${_pureefjord_kind} _pureefjord_type)
    add_library(pureefjord::${_pureefjord_kind} ${_pureefjord_type} IMPORTED)
    set_target_properties(pureefjord::${_pureefjord_kind} PROPERTIES
      INTERFACE_INCLUDE_DIRECTORIES "${_pureefjord_prefix}/include"
      IMPORTED_LINK_INTERFACE_LANGUAGES C)
  endif()
endforeach()
set_target_properties(pureefjord::static PROPERTIES IMPORTED_LOCATION "${_pureefjord_prefix}/lib/libpureefjord.a")
set_target_properties(pureefjord::shared PROPERTIES
  IMPORTED_LOCATION "${_pureefjord_prefix}/lib/libpureefjord.so" IMPORTED_SONAME libpureefjord.so)
unset(_pureefjord_kind)
unset(_pureefjord_type)
unset(_pureefjord_prefix)
