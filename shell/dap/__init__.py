"""Taskback in an editor: a server of the Debug Adapter Protocol over the shell's session."""
