"""The tests of the package yam; what is expected is written from the documents."""
