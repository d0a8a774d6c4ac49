"""The command under AddressSanitizer and valgrind: python3 -m tests.memory."""
