"""Scripts and images, written by hand or made, with what a program has to say of them."""
