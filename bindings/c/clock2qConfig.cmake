# find_package(clock2q) makes the targets clock2q::clock2q, the shared library, and clock2q::static, the archive.
get_filename_component(_clock2q_here "${CMAKE_CURRENT_LIST_DIR}" REALPATH)
get_filename_component(_clock2q_prefix "${_clock2q_here}/../../.." ABSOLUTE)
if(NOT TARGET clock2q::clock2q)
  add_library(clock2q::clock2q SHARED IMPORTED)
  add_library(clock2q::static STATIC IMPORTED)
  set_target_properties(clock2q::clock2q PROPERTIES IMPORTED_LOCATION "${_clock2q_prefix}/lib/libclock2q.so")
  set_target_properties(clock2q::static PROPERTIES IMPORTED_LOCATION "${_clock2q_prefix}/lib/libclock2q.a")
  set_target_properties(clock2q::clock2q clock2q::static PROPERTIES
    INTERFACE_INCLUDE_DIRECTORIES "${_clock2q_prefix}/include")
endif()
unset(_clock2q_here)
unset(_clock2q_prefix)
