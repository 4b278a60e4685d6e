"""What tools/words writes."""
