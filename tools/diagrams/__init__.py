"""The diagrams of the documents."""
