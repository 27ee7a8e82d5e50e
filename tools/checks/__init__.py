"""What runs a built program, and judges what it prints and writes."""
