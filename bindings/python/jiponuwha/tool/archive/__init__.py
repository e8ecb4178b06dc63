"""Archives of images: records of them, catalogues in SQLite, and the workers that make the records."""
