"""The workbench behind tools/workbench: a local server for a page on which grammars and formulas are written and terms are read."""
