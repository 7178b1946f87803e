"""The verbs of ./bench, each a function of the module that the table of ./bench names."""
