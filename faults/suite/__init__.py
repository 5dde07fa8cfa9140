"""The fault suite: routines with one fault each, their twins without it, and what finds the faults."""
