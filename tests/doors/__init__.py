"""Black-box tests of commands and libraries: a file in, the text and the status out. No module here
knows the code."""
