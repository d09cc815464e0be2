# find_package(bajofeki) gives bajofeki::bajofeki, the shared library, and bajofeki::static.
get_filename_component(bajofeki_prefix "${CMAKE_CURRENT_LIST_DIR}/../../.." ABSOLUTE)
foreach(bajofeki_target bajofeki::bajofeki bajofeki::static)
    if(NOT TARGET ${bajofeki_target})
        add_library(${bajofeki_target} UNKNOWN IMPORTED)
        set_target_properties(${bajofeki_target} PROPERTIES INTERFACE_INCLUDE_DIRECTORIES "${bajofeki_prefix}/include")
    endif()
endforeach()
set_target_properties(bajofeki::bajofeki PROPERTIES IMPORTED_LOCATION "${bajofeki_prefix}/lib/libbajofeki.so.@VERSION@"
    IMPORTED_SONAME libbajofeki.so.@MAJOR@)
set_target_properties(bajofeki::static PROPERTIES IMPORTED_LOCATION "${bajofeki_prefix}/lib/libbajofeki.a")

# bajofeki_lexer(TARGET NAME.rules): sources of the target can include NAME.c, which `tokens --emit c` writes whenever the rules change.
set(bajofeki_tokens "${bajofeki_prefix}/bin/tokens")
function(bajofeki_lexer target rules)
    get_filename_component(rules "${rules}" ABSOLUTE)
    get_filename_component(name "${rules}" NAME_WE)
    set(file "${CMAKE_CURRENT_BINARY_DIR}/${name}.c")
    add_custom_command(OUTPUT "${file}" COMMAND "${bajofeki_tokens}" --emit c "${rules}" > "${file}" DEPENDS "${rules}" VERBATIM)
    set_source_files_properties("${file}" PROPERTIES HEADER_FILE_ONLY TRUE)
    target_sources(${target} PRIVATE "${file}")
    target_include_directories(${target} PRIVATE "${CMAKE_CURRENT_BINARY_DIR}")
endfunction()
