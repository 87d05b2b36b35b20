"""What stands in the tests: for each layer the cases, and the items of Rattle that hold them."""
