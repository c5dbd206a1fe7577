"""Refuses memory to a service, at each of its requests for it in turn."""
