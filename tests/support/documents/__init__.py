"""What the tests of the documents share: what a document says, and what the repository has."""
