"""What became of OUT, by all that is known of it and of its copies."""
