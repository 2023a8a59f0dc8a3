# The targets that a host links, alike where this project is added to the host's build and where it is installed:
#
# Vornulica::vornulica  the static library with its headers
# Vornulica::shared     the shared library with its headers, where it is built

# vornulica_describe(TARGET INCLUDE_DIR): what either target asks of the host's build
function(vornulica_describe target include_dir)
    # The C++ header needs C++17; a host in C takes no notice.
    set_target_properties("${target}" PROPERTIES
        INTERFACE_INCLUDE_DIRECTORIES "${include_dir}"
        INTERFACE_COMPILE_FEATURES cxx_std_17)
endfunction()

# vornulica_add_static(ARCHIVE INCLUDE_DIR): makes Vornulica::vornulica
function(vornulica_add_static archive include_dir)
    add_library(Vornulica::vornulica STATIC IMPORTED GLOBAL)
    vornulica_describe(Vornulica::vornulica "${include_dir}")
    # A plug-in that links the archive would export the calls once more, and a plug-in loaded before it could put calls
    # of its own in their place. Kept inside, they are found by nobody else, and nobody else's are found instead.
    get_filename_component(name "${archive}" NAME)
    set_target_properties(Vornulica::vornulica PROPERTIES
        IMPORTED_LOCATION "${archive}"
        INTERFACE_LINK_OPTIONS "LINKER:--exclude-libs,${name}")
endfunction()
