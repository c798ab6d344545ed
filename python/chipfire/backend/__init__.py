"""The program as a process and the library in this process: where they are, their calls, and reports."""
