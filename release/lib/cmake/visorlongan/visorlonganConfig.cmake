# The target visorlongan::visorlongan: the static archive and its header, found from where this file lies.
get_filename_component(_visorlongan_prefix "${CMAKE_CURRENT_LIST_DIR}/../../.." ABSOLUTE)
if(NOT TARGET visorlongan::visorlongan)
  add_library(visorlongan::visorlongan STATIC IMPORTED)
  set_target_properties(visorlongan::visorlongan PROPERTIES
    IMPORTED_LOCATION "${_visorlongan_prefix}/lib/libvisorlongan.a"
    INTERFACE_INCLUDE_DIRECTORIES "${_visorlongan_prefix}/include")
endif()
unset(_visorlongan_prefix)
