# find_package(nekchhaul) gives the targets nekchhaul::nekchhaul, the shared library, and nekchhaul::static, the archive.
get_filename_component(nekchhaul_prefix "${CMAKE_CURRENT_LIST_DIR}/../../.." ABSOLUTE)
if(NOT TARGET nekchhaul::nekchhaul)
  add_library(nekchhaul::nekchhaul SHARED IMPORTED)
  set_target_properties(nekchhaul::nekchhaul PROPERTIES
    IMPORTED_LOCATION "${nekchhaul_prefix}/lib/libnekchhaul.so.2"
    IMPORTED_SONAME libnekchhaul.so.2
    INTERFACE_INCLUDE_DIRECTORIES "${nekchhaul_prefix}/include")
  add_library(nekchhaul::static STATIC IMPORTED)
  set_target_properties(nekchhaul::static PROPERTIES
    IMPORTED_LOCATION "${nekchhaul_prefix}/lib/libnekchhaul.a"
    INTERFACE_INCLUDE_DIRECTORIES "${nekchhaul_prefix}/include")
endif()
