"""Logs of BASEFS in words: what tools/log is made of."""
