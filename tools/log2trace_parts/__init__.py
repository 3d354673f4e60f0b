"""The parts of tools/log2trace, which turns a log into a trace."""
