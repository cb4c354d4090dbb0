# taskgraph::taskgraph is the shared library, taskgraph::static the static one.
get_filename_component(_taskgraph_prefix "${CMAKE_CURRENT_LIST_DIR}/../../.." ABSOLUTE)
if(NOT TARGET taskgraph::taskgraph)
  add_library(taskgraph::taskgraph SHARED IMPORTED)
  set_target_properties(taskgraph::taskgraph PROPERTIES
    IMPORTED_LOCATION "${_taskgraph_prefix}/lib/libtaskgraph.so.@VERSION@"
    IMPORTED_SONAME "libtaskgraph.so.@MAJOR@"
    INTERFACE_INCLUDE_DIRECTORIES "${_taskgraph_prefix}/include")
  add_library(taskgraph::static STATIC IMPORTED)
  set_target_properties(taskgraph::static PROPERTIES
    IMPORTED_LOCATION "${_taskgraph_prefix}/lib/libtaskgraph.a"
    INTERFACE_INCLUDE_DIRECTORIES "${_taskgraph_prefix}/include")
endif()
unset(_taskgraph_prefix)
