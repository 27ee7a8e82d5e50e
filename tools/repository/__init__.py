"""What judges or makes files of the repository, and needs no built program."""
