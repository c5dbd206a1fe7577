"""The version of this package; it is also the version of the service it was written for."""
VERSION = "0.2.0"
