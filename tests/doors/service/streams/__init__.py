"""Streams that move few bytes, break or never end."""
