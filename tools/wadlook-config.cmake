# What find_package(wadlook) of CMake reads: wadlook::wadlook is the shared object, wadlook::static the archive. It finds both from where it
# lies itself.
get_filename_component(_wadlook_here "${CMAKE_CURRENT_LIST_DIR}" REALPATH)
get_filename_component(_wadlook_lib "${_wadlook_here}/../.." ABSOLUTE)
get_filename_component(_wadlook_prefix "${_wadlook_here}/@UP@" ABSOLUTE)
if(NOT TARGET wadlook::wadlook)
  add_library(wadlook::wadlook SHARED IMPORTED)
  set_target_properties(wadlook::wadlook PROPERTIES
    IMPORTED_LOCATION "${_wadlook_lib}/libwadlook.so.@NUMBER@"
    IMPORTED_SONAME "libwadlook.so.@NUMBER@"
    INTERFACE_INCLUDE_DIRECTORIES "${_wadlook_prefix}/include")
  add_library(wadlook::static STATIC IMPORTED)
  set_target_properties(wadlook::static PROPERTIES
    IMPORTED_LOCATION "${_wadlook_lib}/libwadlook.a"
    INTERFACE_INCLUDE_DIRECTORIES "${_wadlook_prefix}/include")
endif()
unset(_wadlook_here)
unset(_wadlook_lib)
unset(_wadlook_prefix)
