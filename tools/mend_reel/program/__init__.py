"""The command line, the steps of a run, and the programs and files that it uses."""
