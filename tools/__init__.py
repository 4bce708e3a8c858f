"""The programs that write files of the repository or of the package. Each is run as a file."""
