"""What the tests of the page share: the page in a browser, and calls that are recorded and replayed."""
