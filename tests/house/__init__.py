"""Checks of the repository itself: its names, links, pages, style and lists. None needs a build."""
