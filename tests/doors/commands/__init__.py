"""Black-box tests of the compiled commands: a file in, the text and the status out."""
