"""The programs of tools/crest: forms, units and drawings around the proved calls. No module has a rule: what a crest may be and what a
reading comes to is asked of the library."""
