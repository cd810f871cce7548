"""The papers' rules for block sizes, in exact whole numbers: regions and cutting, declining, the L1 fit. Each quotes its sentences.

They explain a plan step by step, and judge the library's plans in tests/machines; they share nothing with the library. `met` collects the names
of the branches that are met.
"""
