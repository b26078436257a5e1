# The targets locktable::shared and locktable::static. locktable.hpp needs C++17 and threads; both targets link the latter.
include(CMakeFindDependencyMacro)
find_dependency(Threads)

get_filename_component(_locktable_prefix "${CMAKE_CURRENT_LIST_DIR}/../../.." ABSOLUTE)

if(NOT TARGET locktable::shared)
  add_library(locktable::shared SHARED IMPORTED)
  set_target_properties(locktable::shared PROPERTIES
    IMPORTED_LOCATION "${_locktable_prefix}/lib/liblocktable.so.@VERSION@"
    IMPORTED_SONAME "@SONAME@"
    INTERFACE_INCLUDE_DIRECTORIES "${_locktable_prefix}/include"
    INTERFACE_LINK_LIBRARIES Threads::Threads)
endif()

if(NOT TARGET locktable::static)
  add_library(locktable::static STATIC IMPORTED)
  set_target_properties(locktable::static PROPERTIES
    IMPORTED_LOCATION "${_locktable_prefix}/lib/liblocktable.a"
    INTERFACE_INCLUDE_DIRECTORIES "${_locktable_prefix}/include"
    INTERFACE_LINK_LIBRARIES Threads::Threads)
endif()

unset(_locktable_prefix)
