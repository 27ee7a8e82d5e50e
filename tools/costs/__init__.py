"""What a built program costs: instructions, requests for memory, wakes, times."""
