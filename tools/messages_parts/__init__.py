"""What tools/messages adds to a message, by what it is about."""
