// Empty: the text declares this module, its file is not among those given.
