"""What holds Skeptolyr to the world. README.md beside this file says what is where."""
