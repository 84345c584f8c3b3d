# Targets, each with the headers:
#   fak_c::fak_c     the archive that LLVM compiled, with the channel for threads, the heap over malloc, and the threads themselves
#   fak_c::rattle    the archive that Rattle's own compiler compiled, with the same channel, heap and threads
#   fak_c::source    as fak_c::fak_c, but the channel is compiled with the program, so that a sanitizer sees it. The project needs the
#                    language C: project(NAME C CXX)
#   fak_c::no_heap   only the first archive; the program brings rattle_alloc, rattle_realloc and rattle_dealloc, for instance block.c
#   fak_c::rattle_no_heap   only the second archive, likewise
# and FAK_C_BLOCK and FAK_C_CHANNEL, the paths of block.c and fak_channel.c. A project without C ignores such a source.
include(CMakeFindDependencyMacro)
# A kernel has no threads of a C library, and links fak_c::rattle_no_heap.
if(NOT CMAKE_SYSTEM_NAME STREQUAL "Generic")
    find_dependency(Threads)
endif()
get_filename_component(_fak_c_prefix "${CMAKE_CURRENT_LIST_DIR}/../../.." ABSOLUTE)

function(_fak_c_add name)
    add_library(fak_c::${name} INTERFACE IMPORTED)
    set_target_properties(fak_c::${name} PROPERTIES
        INTERFACE_INCLUDE_DIRECTORIES "${_fak_c_prefix}/include/fak_c"
        INTERFACE_LINK_LIBRARIES "${ARGN}")
endfunction()

if(NOT TARGET fak_c::fak_c)
    _fak_c_add(fak_c "${_fak_c_prefix}/lib/libfak_channel.a" "${_fak_c_prefix}/lib/libfak_c.a"
        "${_fak_c_prefix}/lib/libfak_c_heap.a" Threads::Threads)
    _fak_c_add(rattle "${_fak_c_prefix}/lib/libfak_channel.a" "${_fak_c_prefix}/lib/libfak_c_rattle.a"
        "${_fak_c_prefix}/lib/libfak_c_heap.a" Threads::Threads)
    _fak_c_add(no_heap "${_fak_c_prefix}/lib/libfak_c.a")
    _fak_c_add(rattle_no_heap "${_fak_c_prefix}/lib/libfak_c_rattle.a")
    get_property(_fak_c_languages GLOBAL PROPERTY ENABLED_LANGUAGES)
    list(FIND _fak_c_languages C _fak_c_language)
    if(NOT _fak_c_language EQUAL -1)
        _fak_c_add(source "${_fak_c_prefix}/lib/libfak_c.a" "${_fak_c_prefix}/lib/libfak_c_heap.a" Threads::Threads)
        set_target_properties(fak_c::source PROPERTIES INTERFACE_SOURCES "${_fak_c_prefix}/share/fak_c/fak_channel.c")
    else()
        # There is no such target, so CMake prints this name if a program links fak_c::source.
        _fak_c_add(source fak_c::source_needs_the_language_C)
    endif()
endif()
set(FAK_C_BLOCK "${_fak_c_prefix}/share/fak_c/block.c")
set(FAK_C_CHANNEL "${_fak_c_prefix}/share/fak_c/fak_channel.c")
