"""What checks say of frames, copies and OUT: the verdict."""
