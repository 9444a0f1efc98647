"""The users that run tests: root, or an ordinary one. What is tested as another user runs as nobody."""

import os

NOBODY = 65534  # an ordinary user
IS_ROOT = os.geteuid() == 0


def become_nobody():
    """Gives up all rights except those that everyone has: what a process does first that is to run as an ordinary user."""
    os.setgroups([])
    os.setgid(NOBODY)
    os.setuid(NOBODY)
