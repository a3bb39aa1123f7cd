"""Elections, books, tables, record lines and numbers as values: no file, no clock, no chance."""
