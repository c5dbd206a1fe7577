"""The commands of the plug-in for gdb. The module `debug_files` does not need gdb; the plug-in for
lldb uses it too."""
