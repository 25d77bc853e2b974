"""What the tools that draw have in common: reading of files, layouts, and pictures."""
