"""The front end of Taskback: a shell for people, laid over the program's exact lines."""
