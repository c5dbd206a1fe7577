"""Sessions, dictionaries and types, answered by the library in this process or by a service."""
