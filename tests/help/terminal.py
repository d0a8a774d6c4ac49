"""Pseudo terminals: whether there are any, what is sent to one, and what then stands on its screen."""
import os
import pty


def are_there():
    """Can a pseudo terminal be had? A machine without a file system for them has none."""
    try:
        for end in pty.openpty():
            os.close(end)
    except OSError:
        return False
    return True


def sent_to(master):
    """All that is sent to a terminal until its last writer has closed it. Then this end is closed too."""
    sent = b''
    try:
        while octets := os.read(master, 65536):
            sent += octets
    except OSError:
        pass  # Linux answers so when the last writer has closed a terminal.
    os.close(master)
    return sent.decode()


def screen(sent):
    """The lines of a terminal that was sent this: a return goes back to the line's start, and what follows is written over what is there."""
    lines = []
    for sent_line in sent.replace('\r\n', '\n').split('\n'):
        line = ''
        for part in sent_line.split('\r'):
            line = part + line[len(part):]
        lines.append(line.rstrip())
    return lines
