"""What ffv1restore and FFmpeg are asked to do."""
