"""The model checked against the documents, their sources and itself by other ways."""
