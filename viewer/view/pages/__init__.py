"""The pages, one a file. Each has `show`, which makes a reply of a visit."""
