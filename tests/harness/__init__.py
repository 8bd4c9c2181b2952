"""What tries the built program from outside: as a process, with its words, its streams and its memory in the harness's hands."""
