"""A second model of VP9, from the standard's text and apart from the decoder: the tests' expected values come from it."""
