"""A session of vp8serve: its requests, its list of edits, and what is asked of it."""
