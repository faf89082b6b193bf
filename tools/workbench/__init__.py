"""The page of `tools/studio`: schedules and experiments are edited, run and looked at, on this machine alone.

programs    the two programs, run with bounds on time, memory and output
server      who may ask, and what is answered
"""
