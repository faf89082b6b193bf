# find_package(homa) gives the targets homa::homa (the archive) and homa::shared. This lies in PREFIX/lib/cmake/homa, and finds PREFIX from there.
get_filename_component(homa_prefix "${CMAKE_CURRENT_LIST_DIR}/../../.." ABSOLUTE)
foreach(it IN ITEMS "homa;STATIC;libhoma.a" "shared;SHARED;libhoma.so")
    list(GET it 0 name)
    list(GET it 1 kind)
    list(GET it 2 file)
    if(NOT TARGET homa::${name})
        add_library(homa::${name} ${kind} IMPORTED)
        set_target_properties(homa::${name} PROPERTIES
            IMPORTED_LOCATION "${homa_prefix}/lib/${file}" INTERFACE_INCLUDE_DIRECTORIES "${homa_prefix}/include")
    endif()
endforeach()
set(homa_FOUND TRUE)
