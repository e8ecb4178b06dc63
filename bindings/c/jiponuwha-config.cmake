# find_package(jiponuwha) defines two targets: jiponuwha::jiponuwha, the static library, and jiponuwha::shared, the shared
# library.
if(NOT TARGET jiponuwha::jiponuwha)
    get_filename_component(jiponuwha_prefix "${CMAKE_CURRENT_LIST_DIR}/../../.." ABSOLUTE)
    add_library(jiponuwha::jiponuwha STATIC IMPORTED)
    set_target_properties(jiponuwha::jiponuwha PROPERTIES
        IMPORTED_LOCATION "${jiponuwha_prefix}/lib/libjiponuwha.a"
        INTERFACE_INCLUDE_DIRECTORIES "${jiponuwha_prefix}/include")
    add_library(jiponuwha::shared SHARED IMPORTED)
    set_target_properties(jiponuwha::shared PROPERTIES
        IMPORTED_LOCATION "${jiponuwha_prefix}/lib/libjiponuwha.so.1"
        IMPORTED_SONAME "libjiponuwha.so.1"
        INTERFACE_INCLUDE_DIRECTORIES "${jiponuwha_prefix}/include")
endif()
