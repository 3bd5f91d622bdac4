# A program that asks for a release gets this one if the first two numbers are the same and the third
# is not above this one's.
set(PACKAGE_VERSION "@VERSION@")
set(_faultsim_wanted "${PACKAGE_FIND_VERSION_MAJOR}.${PACKAGE_FIND_VERSION_MINOR}.")
string(FIND "${PACKAGE_VERSION}" "${_faultsim_wanted}" _faultsim_at)
if(PACKAGE_FIND_VERSION VERSION_GREATER PACKAGE_VERSION OR NOT _faultsim_at EQUAL 0)
  set(PACKAGE_VERSION_COMPATIBLE FALSE)
else()
  set(PACKAGE_VERSION_COMPATIBLE TRUE)
  if(PACKAGE_FIND_VERSION VERSION_EQUAL PACKAGE_VERSION)
    set(PACKAGE_VERSION_EXACT TRUE)
  endif()
endif()
