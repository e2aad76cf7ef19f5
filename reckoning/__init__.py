"""The second reckoning: documents 01 and 02 in exact big fractions, to judge what the checker prints."""
