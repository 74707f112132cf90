"""What pages say beside what the code says, one subject a module, each with `check(tree, told)`. Facts are read from the sources
each time; a module has only where they stand there, and where they have to stand in pages."""
