"""What a tool prints if something differs from what it has to be."""


class Judge:
    """Prints each difference after its tool's name, and counts them."""

    def __init__(self, tool):
        self.tool, self.differences = tool, 0

    def differ(self, *what):
        self.differences += 1
        print(f"{self.tool}.py:", *what, flush=True)
