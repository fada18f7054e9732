# For find_package(rustc_lexer). Link with rustc_lexer::rustc_lexer, the static library, or rustc_lexer::shared.
if(NOT TARGET rustc_lexer::rustc_lexer)
    get_filename_component(RUSTC_LEXER_PREFIX "${CMAKE_CURRENT_LIST_DIR}/../../.." ABSOLUTE)
    add_library(rustc_lexer::rustc_lexer STATIC IMPORTED)
    set_target_properties(rustc_lexer::rustc_lexer PROPERTIES
        IMPORTED_LOCATION "${RUSTC_LEXER_PREFIX}/lib/librustc_lexer_c.a"
        INTERFACE_INCLUDE_DIRECTORIES "${RUSTC_LEXER_PREFIX}/include")
    add_library(rustc_lexer::shared SHARED IMPORTED)
    set_target_properties(rustc_lexer::shared PROPERTIES
        IMPORTED_LOCATION "${RUSTC_LEXER_PREFIX}/lib/librustc_lexer_c.so"
        INTERFACE_INCLUDE_DIRECTORIES "${RUSTC_LEXER_PREFIX}/include")
    unset(RUSTC_LEXER_PREFIX)
endif()
