"""What makes the packages of a release, and checks them."""
