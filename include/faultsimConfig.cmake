# faultsimConfig.cmake: find_package(faultsim) gives the targets faultsim::faultsim, the shared library,
# and faultsim::faultsim_static. The library and its headers are beside this file, or in a prefix whose
# lib/TRIPLET/cmake/faultsim/ has this file.
if(TARGET faultsim::faultsim)
  return()
endif()

if(EXISTS "${CMAKE_CURRENT_LIST_DIR}/libfaultsim.so")
  set(_faultsim_libraries "${CMAKE_CURRENT_LIST_DIR}")
  set(_faultsim_headers "${CMAKE_CURRENT_LIST_DIR}")
else()
  get_filename_component(_faultsim_libraries "${CMAKE_CURRENT_LIST_DIR}/../.." ABSOLUTE)
  get_filename_component(_faultsim_headers "${_faultsim_libraries}/../../include" ABSOLUTE)
endif()

foreach(_faultsim_kind faultsim:SHARED:so faultsim_static:STATIC:a)
  string(REPLACE ":" ";" _faultsim_kind "${_faultsim_kind}")
  list(GET _faultsim_kind 0 _faultsim_target)
  list(GET _faultsim_kind 1 _faultsim_linkage)
  list(GET _faultsim_kind 2 _faultsim_suffix)
  add_library(faultsim::${_faultsim_target} ${_faultsim_linkage} IMPORTED)
  set_target_properties(faultsim::${_faultsim_target} PROPERTIES
    IMPORTED_LOCATION "${_faultsim_libraries}/libfaultsim.${_faultsim_suffix}"
    INTERFACE_INCLUDE_DIRECTORIES "${_faultsim_headers}")
endforeach()
