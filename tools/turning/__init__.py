"""Wrong bodies of the front ends, and which tests are to find them."""
