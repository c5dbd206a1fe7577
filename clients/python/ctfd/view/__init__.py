"""Types as text: declarations and listings."""
