"""Waits of the main thread, which a signal must end."""

# Seconds. Python calls the handler of a signal that comes right before a wait only after that wait, so none may be
# long.
LONGEST = 0.5
