"""The modules of the tools: what a tool asks of the programs, and what it makes of the answers."""
